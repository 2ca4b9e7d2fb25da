package demo.app;
class Q { }
