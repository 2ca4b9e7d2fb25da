package b;
class SubsetSecond { }
