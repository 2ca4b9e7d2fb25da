class Typed { private String s = 1; }
