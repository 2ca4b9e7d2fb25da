package demo;
class O { }
