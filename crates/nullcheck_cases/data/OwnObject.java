class Object { }
