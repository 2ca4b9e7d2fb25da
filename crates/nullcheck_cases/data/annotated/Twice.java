class Twice { private String s; private String s; }
