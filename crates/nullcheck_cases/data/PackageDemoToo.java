package demo;
class P { }
