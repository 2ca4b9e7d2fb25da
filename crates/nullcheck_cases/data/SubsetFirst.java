package a;
class SubsetFirst { }
