interface NonNull { }
