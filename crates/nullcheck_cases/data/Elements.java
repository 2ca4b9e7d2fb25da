class A { void f(@Nullable String[] x) { } } class B extends A { void f(String[] x) { } }
