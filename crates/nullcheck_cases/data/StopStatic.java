import static a.B.c;

class StopStatic { }
