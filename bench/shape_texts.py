"""Shapes of text that nobody writes by hand, for bench/shapes.py."""

SHAPES = []


def shape(name, start, limit=None, copies=4096, says="accepted", words=()):
    """A shape: the text of its copy of number `k`, of size `n`; `limit` is its greatest number, `copies` how many there may be, `words`
    what the program is asked beside the files."""
    def keep(make):
        SHAPES.append((name, make, start, limit or 1 << 30, copies, says, words))
        return make
    return keep


# What finds the notes of rows.
LONG = ("--report", "long")


def times(n, text, between=""):
    """The text for each number below n."""
    return between.join(text(i) for i in range(n))


def method(k, parameters, body):
    return f"class C{k} {{\n  int n;\n  int f({parameters}) {{\n{body}\n    return 0;\n  }}\n}}\n"

# What people write: the measure of the other shapes.
@shape("members", 64)
def _(n, k):
    line = "  int f{i}(boolean b, int[] a) {{ int x = 1; if (b) x = x + 2 * x; else {{ x++; }} for (int s : a) x = s + f{i}(b, a); return x; }}\n"
    return f"class C{k} {{\n" + times(n, lambda i: line.format(i=i)) + "}\n"

# Values that are needed at once, and such as come one after the other.
@shape("array of numbers", 60, 1000)
def _(n, k):
    return method(k, "", "    int[] a = new int[] { " + times(n, lambda i: str(i), ", ") + " };")

@shape("array of texts", 60, 1000)
def _(n, k):
    return method(k, "", "    String[] a = new String[] { " + times(n, lambda i: f'"t{i}"', ", ") + " };")

@shape("array of nulls", 60, 1000)
def _(n, k):
    return method(k, "", "    @Nullable String[] a = new @Nullable String[] { " + times(n, lambda i: "null", ", ") + " };")

@shape("array of objects", 60, 1000)
def _(n, k):
    return method(k, "", f"    C{k}[] a = new C{k}[] {{ " + times(n, lambda i: f"new C{k}()", ", ") + " };")

@shape("array of calls", 60, 500)
def _(n, k):
    return f"class C{k} {{\n  int g(int x) {{ return x; }}\n  int[] f() {{ return new int[] {{ " + times(n, lambda i: f"g({i})", ", ") + " }; }\n}\n"

@shape("array of nullable", 500, 8000, says="rejected")
def _(n, k):
    return method(k, "@Nullable String s", "    String[] a = new String[] { " + times(n, lambda i: "s", ", ") + " };")

@shape("too many numbers", 500, says="refused")
def _(n, k):
    return method(k, "", "    int[] a = new int[] { " + times(n, lambda i: str(i), ", ") + " };")

@shape("too many calls", 500, says="refused")
def _(n, k):
    return f"class C{k} {{\n  int g(int x) {{ return x; }}\n  int[] f() {{ return new int[] {{ " + times(n, lambda i: f"g({i})", ", ") + " }; }\n}\n"

@shape("too many objects", 500, says="refused")
def _(n, k):
    return method(k, "", f"    C{k}[] a = new C{k}[] {{ " + times(n, lambda i: f"new C{k}()", ", ") + " };")

@shape("too many updates", 500, says="refused")
def _(n, k):
    return method(k, "int x", "    for (; x < 1; " + times(n, lambda i: "x++", ", ") + ") { }")

@shape("arguments", 60, 960)
def _(n, k):
    return f"class C{k} {{\n  static void f(" + times(n, lambda i: f"int a{i}", ", ") + ") { }\n  static void g() { f(" + times(n, lambda i: str(i), ", ") + "); }\n}\n"

@shape("arguments of new", 60, 960)
def _(n, k):
    return f"class C{k} {{\n  C{k}(" + times(n, lambda i: f"@Nullable C{k} a{i}", ", ") + f") {{ }}\n  static void g() {{ new C{k}(" + times(n, lambda i: "null", ", ") + "); }\n}\n"

@shape("arguments, wrong", 60, 960, says="rejected")
def _(n, k):
    return f"class C{k} {{\n  static void f(" + times(n, lambda i: f"String a{i}", ", ") + ") { }\n  static void g() { f(" + times(n, lambda i: "null", ", ") + "); }\n}\n"

@shape("chain of calls", 60, 480)
def _(n, k):
    return method(k, f"C{k} a", "    a" + ".g()" * n + ";\n    return 0;\n  }\n" + f"  C{k} g() {{\n    return this;\n  }}\n  int h() {{")

@shape("chain of calls, wrong", 60, 480, says="rejected")
def _(n, k):
    return method(k, f"C{k} a", "    a" + ".g()" * n + ";\n    return 0;\n  }\n" + f"  @Nullable C{k} g() {{\n    return this;\n  }}\n  int h() {{")

@shape("chain of fields", 60, 480)
def _(n, k):
    return f"class C{k} {{\n  C{k} b;\n  C{k}(C{k} a) {{ b = a; }}\n  C{k} f(C{k} a) {{ return a" + ".b" * n + "; }\n}\n"

@shape("chain of fields, wrong", 60, 480, says="rejected")
def _(n, k):
    return f"class C{k} {{\n  @Nullable C{k} b;\n  @Nullable C{k} f(C{k} a) {{ return a" + ".b" * n + "; }\n}\n"

@shape("sums of numbers", 60, 480)
def _(n, k):
    return method(k, "", "    int x = " + " + ".join(["1"] * n) + ";")

@shape("sums of texts", 60, 480)
def _(n, k):
    return method(k, "String s", "    String t = " + " + ".join(["s"] * n) + ";")

@shape("sums in sums", 24, 190)
def _(n, k):
    return method(k, "int y", "    int x = " + "(y + " * n + "1" + ")" * n + ";")

@shape("and", 60, 480)
def _(n, k):
    return method(k, "boolean b", "    boolean x = " + " && ".join(["b"] * n) + ";")

@shape("or of tests", 60, 480)
def _(n, k):
    return method(k, "@Nullable String s", "    boolean x = " + " || ".join(["s == null"] * n) + ";")

@shape("and of equals", 60, 240)
def _(n, k):
    return method(k, "@Nullable String s", "    boolean x = s != null && " + " && ".join(["s.length() == 1"] * n) + ";")

@shape("choices", 60, 480)
def _(n, k):
    return method(k, "boolean b", "    int x = " + "b ? 1 : " * n + "0;")

@shape("choices in parentheses", 24, 190)
def _(n, k):
    return method(k, "boolean b", "    int x = " + "(b ? 1 : " * n + "0" + ")" * n + ";")

@shape("choices of conditions", 24, 190)
def _(n, k):
    return method(k, "boolean b", "    if (" + "(b ? b : " * n + "b" + ")" * n + ") n = 1;")

@shape("nested calls", 24, 190)
def _(n, k):
    return method(k, "int x", "    x = " + "f(" * n + "1" + ")" * n + ";")

@shape("nested indexes", 24, 190)
def _(n, k):
    return method(k, "int[] a", "    int x = " + "a[" * n + "0" + "]" * n + ";")

@shape("negations", 60, 480)
def _(n, k):
    return method(k, "boolean b", "    boolean x = " + "!" * n + "b;")

@shape("parentheses", 24, 190)
def _(n, k):
    return method(k, "", "    int x = " + "(" * n + "1" + ")" * n + ";")

@shape("casts", 60, 480)
def _(n, k):
    return method(k, "Object o", "    Object x = " + f"(C{k}) " * n + "o;")

@shape("casts, one by one", 500, 16000)
def _(n, k):
    return method(k, "Object o", f"    C{k} x;\n" + f"    x = (C{k}) o;\n" * n)

@shape("assignments in one", 60, 480)
def _(n, k):
    return method(k, "int x", "    " + "x = " * n + "1;")

@shape("updates", 60, 300)
def _(n, k):
    return method(k, "int x", "    for (; x < 1; " + times(n, lambda i: "x++", ", ") + ") { }")

@shape("first expressions", 60, 1000)
def _(n, k):
    return method(k, "int x", "    for (" + times(n, lambda i: f"x = {i}", ", ") + "; x < 1; ) { }")

# Declarations.
@shape("declarators", 60, 500)
def _(n, k):
    return method(k, "", "    int " + times(n, lambda i: f"a{i} = {i}", ", ") + ";")

@shape("locals", 60, 1000)
def _(n, k):
    return method(k, "", times(n, lambda i: f"    int a{i} = {i};\n"))

@shape("locals, each of the last", 60, 1000)
def _(n, k):
    return method(k, "int a0", times(n, lambda i: f"    int a{i + 1} = a{i};\n"))

@shape("locals of a for", 60, 500)
def _(n, k):
    return method(k, "", "    for (int " + times(n, lambda i: f"a{i} = {i}", ", ") + "; ; ) { }") .replace("\n    return 0;", "")

@shape("uses of a far local", 60, 960)
def _(n, k):
    return method(k, "int a", times(n, lambda i: f"    int a{i} = a;\n") + "    a = a;\n" * (8 * n))

@shape("parameters", 60, 1000)
def _(n, k):
    return f"class C{k} {{\n  void f(" + times(n, lambda i: f"int a{i}", ", ") + ") { }\n}\n"

@shape("fields", 500, copies=1)
def _(n, k):
    return f"class C{k} {{\n" + times(n, lambda i: f"  int a{i};\n") + "}\n"

@shape("fields in one declaration", 500, copies=1)
def _(n, k):
    return f"class C{k} {{\n  int " + times(n, lambda i: f"a{i}", ", ") + ";\n}\n"

@shape("fields with values", 500, 16000, copies=16)
def _(n, k):
    return f"class C{k} {{\n" + times(n, lambda i: f"  int a{i} = {i};\n") + "}\n"

@shape("fields of texts", 250, 2000, copies=16)
def _(n, k):
    return f"class C{k} {{\n" + times(n, lambda i: f'  String a{i} = "{i}";\n') + "}\n"

@shape("fields and constructors", 250, 2000, copies=64)
def _(n, k):
    constructors = times(20, lambda i: f"  C{k}(" + times(i, lambda j: f"int x{j}", ", ") + ") { }\n")
    return f"class C{k} {{\n" + times(n, lambda i: f'  String a{i} = "{i}";\n') + constructors + "}\n"

@shape("fields set by constructor", 250, 2000, copies=16)
def _(n, k):
    return f"class C{k} {{\n" + times(n, lambda i: f"  String a{i};\n") + f"  C{k}(String s) {{\n" + times(n, lambda i: f"    a{i} = s;\n") + "  }\n}\n"

@shape("fields set and read", 250, 2000, copies=16)
def _(n, k):
    return (f"class C{k} {{\n" + times(n, lambda i: f"  String a{i};\n") + f"  C{k}(String s) {{\n"
            + times(n, lambda i: f"    a{i} = s; s = a{i};\n") + "  }\n}\n")

@shape("fields not set", 250, 2000, copies=16, says="rejected")
def _(n, k):
    return f"class C{k} {{\n" + times(n, lambda i: f"  String a{i};\n") + f"  C{k}() {{ }}\n}}\n"

@shape("fields set on two ways", 250, 2000, copies=16)
def _(n, k):
    return (f"class C{k} {{\n" + times(n, lambda i: f"  String a{i};\n") + f"  C{k}(boolean b, String s) {{\n"
            + times(n, lambda i: f"    if (b) a{i} = s; else a{i} = s;\n") + "  }\n}\n")

@shape("fields and returns", 250, 2000, copies=16)
def _(n, k):
    return (f"class C{k} {{\n" + times(n, lambda i: f"  String a{i};\n") + f"  C{k}(int x, String s) {{\n" + times(n, lambda i: f"    a{i} = s;\n")
            + times(n, lambda i: f"    if (x == {i}) return;\n") + "  }\n}\n")

@shape("fields and calls", 250, 2000, copies=16)
def _(n, k):
    return (f"class C{k} {{\n  static void g() {{ }}\n" + times(n, lambda i: f"  String a{i};\n") + f"  C{k}(String s) {{\n"
            + times(n, lambda i: f"    a{i} = s;\n") + "    g();\n" * n + "  }\n}\n")

@shape("static fields that are read", 250, 4000, copies=16)
def _(n, k):
    return (f"class C{k} {{\n" + times(n, lambda i: f"  static int a{i};\n") + "  static int f() {\n    int x = 0;\n"
            + times(n, lambda i: f"    x = a{i};\n") + "    return x;\n  }\n}\n")

@shape("too many fields", 4500, copies=16, says="refused")
def _(n, k):
    return f"class C{k} {{\n" + times(n, lambda i: f'  String a{i} = "{i}";\n') + "}\n"

@shape("constructors", 60, 500)
def _(n, k):
    return f"class C{k} {{\n" + times(n, lambda i: f"  C{k}(" + times(i, lambda j: f"int x{j}", ", ") + ") { }\n") + "}\n"

@shape("constructors, each by the last", 60, 500)
def _(n, k):
    return (f"class C{k} {{\n  C{k}() {{ }}\n" + times(n, lambda i: f"  C{k}(" + times(i + 1, lambda j: f"int x{j}", ", ") + ") { this("
            + times(i, lambda j: "1", ", ") + "); }\n") + "}\n")

@shape("constructors in a circle", 60, 500, says="refused")
def _(n, k):
    return (f"class C{k} {{\n  C{k}() {{ this(" + times(n, lambda j: "1", ", ") + "); }\n"
            + times(n, lambda i: f"  C{k}(" + times(i + 1, lambda j: f"int x{j}", ", ") + ") { this(" + times(i, lambda j: "1", ", ") + "); }\n") + "}\n")

@shape("overloads and calls", 60, 500)
def _(n, k):
    return (f"class C{k} {{\n" + times(n, lambda i: f"  void f(" + times(i, lambda j: f"int x{j}", ", ") + ") { f("
            + times((i * 7) % n, lambda j: "1", ", ") + "); }\n") + "}\n")

@shape("overloads by arity", 60, 500)
def _(n, k):
    return f"class C{k} {{\n" + times(n, lambda i: "  void f(" + times(i, lambda j: f"int x{j}", ", ") + ") { }\n") + "}\n"

@shape("methods that call the next", 500)
def _(n, k):
    return f"class C{k} {{\n" + times(n, lambda i: f"  int f{i}(int x) {{ return f{(i + 1) % n}(x); }}\n") + "}\n"

@shape("private methods, a chain", 500)
def _(n, k):
    return (f"class C{k} {{\n" + times(n, lambda i: f"  private @Nullable String f{i}(@Nullable String s) {{ return f{(i + 1) % n}(s); }}\n") + "}\n")

@shape("inferred, a chain", 500)
def _(n, k):
    return f"class C{k} {{\n" + times(n, lambda i: f"  private void f{i}(String s) {{ f{(i + 1) % n}(s); }}\n") + "  void go() { f0(null); }\n}\n"

@shape("inferred, against the order", 500)
def _(n, k):
    return (f"class C{k} {{\n  private void f0(String s) {{ }}\n" + times(n, lambda i: f"  private void f{i + 1}(String s) {{ f{i}(s); }}\n")
            + f"  void go() {{ f{n}(null); }}\n}}\n")

@shape("inferred, one called by all", 500)
def _(n, k):
    return f"class C{k} {{\n  private void g(String s) {{ }}\n" + times(n, lambda i: f"  void f{i}(@Nullable String s) {{ g(s); }}\n") + "}\n"

@shape("inferred, one that calls all", 500, 8000)
def _(n, k):
    return (f"class C{k} {{\n" + times(n, lambda i: f"  private void f{i}(String s) {{ }}\n") + "  void go(@Nullable String s) {\n"
            + times(n, lambda i: f"    f{i}(s);\n") + "  }\n}\n")

@shape("inferred fields", 250, 2000, copies=16)
def _(n, k):
    return (f"class C{k} {{\n" + times(n, lambda i: f"  private String a{i};\n") + f"  C{k}() {{\n"
            + times(n, lambda i: f"    a{i} = null;\n") + "  }\n}\n")

@shape("inferred fields, a chain", 250, 2000, copies=16)
def _(n, k):
    return (f"class C{k} {{\n" + times(n, lambda i: f"  private String a{i} = \"\";\n")
            + times(n - 1, lambda i: f"  void f{i}() {{ a{i + 1} = a{i}; }}\n") + "  void go() { a0 = null; }\n}\n")

# Classes that stand in many relations.
@shape("classes", 64, 4096, copies=1)
def _(n, k):
    return times(n, lambda i: f"class A{i} {{ }}\n")

@shape("chain of classes", 64, 4096, copies=1)
def _(n, k):
    return "class A0 { }\n" + times(n - 2, lambda i: f"class A{i + 1} extends A{i} {{ }}\n")

@shape("chain of classes, last first", 64, 4096, copies=1)
def _(n, k):
    return times(n - 2, lambda i: f"class A{i} extends A{i + 1} {{ }}\n") + f"class A{n - 2} {{ }}\n"

@shape("circle of classes", 64, 4096, copies=1, says="refused")
def _(n, k):
    return times(n - 1, lambda i: f"class A{i} extends A{(i + 1) % (n - 1)} {{ }}\n")

@shape("below a circle", 64, 4096, copies=1, says="refused")
def _(n, k):
    return "class A0 extends A0 { }\n" + times(n - 2, lambda i: f"class A{i + 1} extends A{i} {{ }}\n")

@shape("circle of interfaces", 64, 4096, copies=1, says="refused")
def _(n, k):
    return times(n - 1, lambda i: f"interface A{i} extends A{(i + 1) % (n - 1)} {{ }}\n")

@shape("circles of two", 64, 4096, copies=1, says="refused")
def _(n, k):
    return times(n // 2 - 1, lambda i: f"class A{i} extends B{i} {{ }}\nclass B{i} extends A{i} {{ }}\n")

@shape("chain that overrides", 64, 4000, copies=1)
def _(n, k):
    return "class A0 { int f(int x) { return x; } }\n" + times(n - 1, lambda i: f"class A{i + 1} extends A{i} {{ int f(int x) {{ return x; }} }}\n")

@shape("chain that overrides, wrong", 64, 4000, copies=1, says="rejected")
def _(n, k):
    return ("class A0 { void f(@Nullable String x) { } }\n"
            + times(n - 1, lambda i: f"class A{i + 1} extends A{i} {{ void f(String x) {{ }} }}\n"))

@shape("chain that overrides, refused", 64, 4000, copies=1, says="refused")
def _(n, k):
    return ("class A0 { int f(String x) { return 1; } }\n"
            + times(n - 1, lambda i: f"class A{i + 1} extends A{i} {{ int f(int x) {{ return x; }} }}\n"))

@shape("many that override", 64, 4000, copies=1)
def _(n, k):
    return "class A0 { int f(int x) { return x; } }\n" + times(n - 1, lambda i: f"class A{i + 1} extends A0 {{ int f(int x) {{ return x; }} }}\n")

@shape("chain of interfaces", 64, 4000, copies=1)
def _(n, k):
    return "interface A0 { void f(); }\n" + times(n - 1, lambda i: f"interface A{i + 1} extends A{i} {{ void f(); }}\n")

@shape("last of a chain of interfaces", 64, 4000, copies=1)
def _(n, k):
    return ("interface I0 { void m0(); }\n" + times(n - 1, lambda i: f"interface I{i + 1} extends I{i} {{ void m{i + 1}(); }}\n")
            + f"class A implements I{n - 1} {{ " + times(n, lambda i: f"public void m{i}() {{ }} ") + "}\n")

@shape("last of a chain of abstract classes", 64, 4000, copies=1)
def _(n, k):
    return ("abstract class A0 { abstract void m0(); }\n"
            + times(n - 1, lambda i: f"abstract class A{i + 1} extends A{i} {{ abstract void m{i + 1}(); }}\n")
            + f"class B extends A{n - 1} {{ " + times(n, lambda i: f"void m{i}() {{ }} ") + "}\n")

@shape("interfaces by two ways", 64, 4000, copies=1)
def _(n, k):
    return ("interface A0 { void f(); }\ninterface B0 { void g(); }\n"
            + times(n // 2 - 1, lambda i: f"interface A{i + 1} extends A{i}, B{i} {{ }}\ninterface B{i + 1} extends B{i}, A{i} {{ }}\n"))

@shape("fifty interfaces", 64, 4000, copies=1)
def _(n, k):
    return (times(50, lambda i: f"interface I{i} {{ void m{i}(); }}\n")
            + times(n, lambda i: f"class A{i} implements " + times(50, lambda j: f"I{j}", ", ") + " { " + times(50, lambda j: f"public void m{j}() {{ }} ") + "}\n"))

@shape("fifty interfaces, abstract", 64, 4000, copies=1)
def _(n, k):
    return (times(50, lambda i: f"interface I{i} {{ void m{i}(); }}\n")
            + times(n, lambda i: f"abstract class A{i} implements " + times(50, lambda j: f"I{j}", ", ") + " { }\n"))

@shape("fifty interfaces, inherited", 64, 4000, copies=1)
def _(n, k):
    return (times(50, lambda i: f"interface I{i} {{ void m{i}(); }}\n") + "class A { " + times(50, lambda j: f"public void m{j}() {{ }} ") + "}\n"
            + times(n, lambda i: f"class A{i} extends A implements " + times(50, lambda j: f"I{j}", ", ") + " { }\n"))

@shape("fifty interfaces, missing", 64, 4000, copies=1, says="refused")
def _(n, k):
    return (times(50, lambda i: f"interface I{i} {{ void m{i}(); }}\n")
            + times(n, lambda i: f"class A{i} implements " + times(50, lambda j: f"I{j}", ", ") + " { }\n"))

@shape("one of many interfaces", 64, 4000, copies=1)
def _(n, k):
    return times(n, lambda i: f"interface I{i} {{ void m(); }}\n") + "class A implements " + times(n, lambda i: f"I{i}", ", ") + " { public void m() { } }\n"

@shape("interface of many methods", 250, copies=1)
def _(n, k):
    return ("interface I { " + times(n, lambda i: f"void m{i}(); ") + "}\n" + "class A implements I { "
            + times(n, lambda i: f"public void m{i}() {{ }} ") + "}\n")

@shape("interface of missing methods", 250, copies=1, says="refused")
def _(n, k):
    return "interface I { " + times(n, lambda i: f"void m{i}(); ") + "}\nclass A implements I { }\n"

@shape("members inherited far", 64, 4000, copies=1)
def _(n, k):
    chain = times(n - 1, lambda i: f"class A{i + 1} extends A{i} {{ }}\n")
    return f"class A0 {{ int a; int g() {{ return a; }} }}\n{chain}class B {{ int f(A{n - 1} x) {{ int y = 0;\n" + "y = x.a + x.g();\n" * n + "return y; } }\n"

@shape("values of far subtypes", 64, 4000, copies=1)
def _(n, k):
    chain = times(n - 1, lambda i: f"class A{i + 1} extends A{i} {{ }}\n")
    return f"class A0 {{ }}\n{chain}class B {{ void f(A{n - 1} x) {{ A0 y = x;\n" + "y = x;\n" * n + "} }\n"

@shape("casts to far subtypes", 64, 4000, copies=1)
def _(n, k):
    chain = times(n - 1, lambda i: f"class A{i + 1} extends A{i} {{ }}\n")
    return f"class A0 {{ }}\n{chain}class B {{ void f(A0 x) {{ A0 y = x;\n" + f"y = (A{n - 1}) x;\n" * n + "} }\n"

@shape("fields along a chain", 64, 4000, copies=1)
def _(n, k):
    return ("class A0 { int a0; }\n" + times(n - 1, lambda i: f"class A{i + 1} extends A{i} {{ int a{i + 1}; }}\n")
            + f"class B {{ int f(A{n - 1} x) {{ int y = 0;\n" + times(n, lambda i: f"y = x.a{i};\n") + "return y; } }\n")

@shape("methods along a chain", 64, 4000, copies=1)
def _(n, k):
    return "class A0 { void f0() { } }\n" + times(n - 1, lambda i: f"class A{i + 1} extends A{i} {{ void f{i + 1}() {{ }} }}\n")

@shape("constructors along a chain", 64, 4000, copies=1)
def _(n, k):
    return ("class A0 { String s; A0(String x) { s = x; } }\n"
            + times(n - 1, lambda i: f"class A{i + 1} extends A{i} {{ String s{i}; A{i + 1}(String x) {{ super(x); s{i} = x; }} }}\n"))

# Statements.
@shape("statements", 500, 16000)
def _(n, k):
    return method(k, "int x", "    x = 1;\n" * n)

@shape("field writes", 500, 16000)
def _(n, k):
    return method(k, "int x", "    n = x;\n" * n)

@shape("calls", 500, 8000)
def _(n, k):
    return method(k, "int x", "    f(x);\n" * n)

@shape("made objects", 500, 8000)
def _(n, k):
    return method(k, "int x", f"    new C{k}();\n" * n)

@shape("empty statements", 500)
def _(n, k):
    return method(k, "", "    " + ";" * n)

@shape("blocks", 24, 180)
def _(n, k):
    return method(k, "int x", "    " + "{" * n + " x = 1; " + "}" * n)

@shape("blocks with locals", 24, 180)
def _(n, k):
    return method(k, "", times(n, lambda i: f"{{ int a{i} = {i}; ") + "}" * n)

@shape("blocks one by one", 60, 1000)
def _(n, k):
    return method(k, "", "    { int a = 1; }\n" * n)

@shape("locals that shadow none", 60, 1000)
def _(n, k):
    return method(k, "", times(n, lambda i: f"    {{ int a{i} = 1; }}\n"))

@shape("loops", 24, 180)
def _(n, k):
    return method(k, "boolean b", "    " + "while (b) {" * n + "}" * n)

@shape("loops without braces", 60, 240)
def _(n, k):
    return method(k, "boolean b", "    " + "while (b) " * n + ";")

@shape("loops over arrays", 24, 180)
def _(n, k):
    return method(k, "int[] a", "    " + times(n, lambda i: f"for (int x{i} : a) {{") + "}" * n)

@shape("loops over arrays, no braces", 40, 330)
def _(n, k):
    return method(k, "int[] a", "    " + times(n, lambda i: f"for (int x{i} : a) ") + ";")

@shape("loops one by one", 500, 8000)
def _(n, k):
    return method(k, "boolean b", "    while (b) { }\n" * n)

@shape("loops with facts", 24, 180)
def _(n, k):
    return (f"class C{k} {{\n  @Nullable C{k} next;\n  void f(C{k} x) {{\n    " + "while (x.next != null) {" * n + " x = x.next; " + "}" * n + "\n  }\n}\n")

@shape("breaks", 500, 8000)
def _(n, k):
    return method(k, "boolean b", "    while (b) {\n" + "      if (b) break;\n" * n + "    }")

@shape("continues", 500, 8000)
def _(n, k):
    return method(k, "boolean b", "    while (b) {\n" + "      if (b) continue;\n" * n + "    }")

@shape("returns", 500, 8000)
def _(n, k):
    return method(k, "boolean b", "    if (b) return 1;\n" * n)

@shape("else if", 60, 480)
def _(n, k):
    return method(k, "boolean b", "    " + "if (b) n = 1; else " * n + "n = 2;")

@shape("ifs in ifs", 60, 480)
def _(n, k):
    return method(k, "boolean b", "    " + "if (b) " * n + "n = 2;")

@shape("ifs one by one", 500, 8000)
def _(n, k):
    return method(k, "boolean b", "    if (b) n = 1; else n = 2;\n" * n)

@shape("tests of one local", 500, 8000)
def _(n, k):
    return method(k, "@Nullable String s", "    if (s != null) n = s.length();\n" * n)

@shape("copies against their order", 60, 960)
def _(n, k):
    return method(k, "boolean b", times(n, lambda i: f"    @Nullable String v{i} = \"\";\n") + "    while (b) {\n"
                  + times(n - 1, lambda i: f"      v{n - 1 - i} = v{n - 2 - i};\n") + "      v0 = null;\n    }")

@shape("copies in a long loop", 60, 960)
def _(n, k):
    return method(k, "boolean b", times(n, lambda i: f"    @Nullable String v{i} = \"\";\n") + "    while (b) {\n" + "      n = n + 1;\n" * (8 * n)
                  + times(n - 1, lambda i: f"      v{n - 1 - i} = v{n - 2 - i};\n") + "      v0 = null;\n    }")

@shape("facts of sixty locals", 500, 8000)
def _(n, k):
    fields = times(60, lambda i: f"  @Nullable C{k} g{i};\n")
    locals_ = times(60, lambda i: f"    C{k} v{i} = a;\n")
    tests = times(n, lambda i: f"    if (v{i % 60}.g{i // 60 % 60} != null) a = v{i % 60}.g{i // 60 % 60};\n")
    return f"class C{k} {{\n{fields}  void f(C{k} a) {{\n{locals_}{tests}  }}\n}}\n"

@shape("facts that stay", 500, 3600)
def _(n, k):
    fields = times(60, lambda i: f"  @Nullable C{k} g{i};\n")
    locals_ = times(60, lambda i: f"    C{k} v{i} = a;\n")
    tests = times(n, lambda i: f"    if (v{i % 60}.g{i // 60} == null) return;\n")
    return f"class C{k} {{\n{fields}  void f(C{k} a) {{\n{locals_}{tests}  }}\n}}\n"

@shape("facts and calls", 500, 3600)
def _(n, k):
    fields = times(60, lambda i: f"  @Nullable C{k} g{i};\n")
    locals_ = times(60, lambda i: f"    C{k} v{i} = a;\n")
    tests = times(n, lambda i: f"    if (v{i % 60}.g{i // 60} == null) return;\n    h();\n")
    return f"class C{k} {{\n{fields}  void h() {{ }}\n  void f(C{k} a) {{\n{locals_}{tests}  }}\n}}\n"

@shape("facts of one local", 500, 3600)
def _(n, k):
    fields = times(n, lambda i: f"  @Nullable C{k} g{i};\n")
    return f"class C{k} {{\n{fields}  void f(C{k} a) {{\n" + times(n, lambda i: f"    if (a.g{i} == null) return;\n") + "  }\n}\n"

@shape("bodies that break a rule", 250, 16000, says="rejected")
def _(n, k):
    return f"class C{k} {{\n" + times(n, lambda i: f"  int f{i}(@Nullable String s) {{ return s.length(); }}\n") + "}\n"

@shape("rows in one line", 250, 16000, says="rejected")
def _(n, k):
    return f"class C{k} {{ " + times(n, lambda i: f"int f{i}(@Nullable String s) {{ return s.length(); }} ") + "}\n"

@shape("rows of one body", 250, 8000, says="rejected")
def _(n, k):
    return method(k, "@Nullable String s", "    String t;\n" + "    t = s;\n" * n + times(n, lambda i: "    g(s);\n") + "    return 0;\n  }\n  int g(String s) {")

# Files that are refused.
@shape("unknown names", 500, 16000, says="refused")
def _(n, k):
    return method(k, "int x", times(n, lambda i: f"    x = u{i};\n"))

@shape("unknown members", 500, 16000, says="refused")
def _(n, k):
    return method(k, f"C{k} x", times(n, lambda i: f"    x.u{i}();\n"))

@shape("unknown types", 500, 16000, says="refused")
def _(n, k):
    return f"class C{k} {{\n" + times(n, lambda i: f"  U{i} f{i};\n") + "}\n"

@shape("unknown supertypes", 64, 4000, copies=1, says="refused")
def _(n, k):
    return times(n, lambda i: f"class A{i} extends U{i} {{ }}\n")

@shape("wrong types", 500, 16000, says="refused")
def _(n, k):
    return method(k, "int x", "    x = true;\n" * n)

@shape("locals not assigned", 500, 8000, says="refused")
def _(n, k):
    return method(k, "int y", "    int x;\n" + "    y = x;\n" * n)

@shape("duplicate methods", 500, 16000, says="refused")
def _(n, k):
    return f"class C{k} {{\n" + "  void f() { }\n" * n + "}\n"

@shape("duplicate fields", 500, 16000, says="refused")
def _(n, k):
    return f"class C{k} {{\n" + "  int f;\n" * n + "}\n"

@shape("duplicate classes", 64, 4000, copies=1, says="refused")
def _(n, k):
    return "class A { }\n" * n

@shape("duplicate parameters", 60, 960, says="refused")
def _(n, k):
    return f"class C{k} {{\n  void f(" + times(n, lambda i: "int x", ", ") + ") { }\n}\n"

@shape("duplicate locals", 500, 16000, says="refused")
def _(n, k):
    return method(k, "", "    int x;\n" * min(n, 1 << 30))

@shape("hidden fields", 64, 4000, copies=1, says="refused")
def _(n, k):
    return "class A0 { int x; }\n" + times(n - 1, lambda i: f"class A{i + 1} extends A{i} {{ int x; }}\n")

@shape("statements that are none", 500, copies=1, says="refused")
def _(n, k):
    return "class A { void f() {" + " 1; f(" * n

@shape("opened brackets", 500, copies=1, says="refused")
def _(n, k):
    return "class A { void f() {" + " {" * n

@shape("opened generics", 500, copies=1, says="refused")
def _(n, k):
    return "class A { int f() { return a" + " < a" * n + "; } }"

# Tokens.
@shape("names", 500, copies=1)
def _(n, k):
    return "class A {\n" + times(n, lambda i: f"  int name{i * 7919 % 1000003};\n") + "}\n"

@shape("literals", 500)
def _(n, k):
    return f"class C{k} {{\n" + times(n, lambda i: f"  int f{i}() {{ return {1000000 + i}; }}\n") + "}\n"

@shape("texts", 500)
def _(n, k):
    return f"class C{k} {{\n" + times(n, lambda i: f'  String f{i}() {{ return "text {i} \\n"; }}\n') + "}\n"

@shape("a long text", 5000)
def _(n, k):
    return f'class C{k} {{\n  String f() {{ return "' + "a" * n + '"; }\n}\n'

@shape("a long name", 5000)
def _(n, k):
    return f"class C{k} {{\n  int " + "a" * n + ";\n}\n"

@shape("long names", 500)
def _(n, k):
    return f"class C{k} {{\n" + times(n, lambda i: "  int " + "a" * 200 + f"{i};\n") + "}\n"

@shape("comments", 5000)
def _(n, k):
    return f"class C{k} {{\n" + "  // a\n" * n + "}\n"

@shape("a long comment", 5000)
def _(n, k):
    return f"class C{k} {{\n  /*" + "*" * n + "*/\n}\n"

@shape("empty lines", 5000)
def _(n, k):
    return f"class C{k} {{" + "\n" * n + "}\n"

@shape("carriage returns", 5000)
def _(n, k):
    return f"class C{k} {{" + "\r" * n + "}\n"

@shape("imports", 500, copies=1)
def _(n, k):
    return times(n, lambda i: f"import org.checkerframework.a{i};\n")

@shape("imports of others", 500, copies=1, says="refused")
def _(n, k):
    return times(n, lambda i: f"import java.a{i};\n")

@shape("a long import", 500, copies=1)
def _(n, k):
    return "import org.checkerframework" + times(n, lambda i: f".a{i}") + ";\n"

@shape("annotations", 500)
def _(n, k):
    return (f"class C{k} {{\n" + times(n, lambda i: f"  @Nullable @Initialized String f{i}(@NonNull @UnknownInitialization String s, @Nullable String t) {{ return t; }}\n") + "}\n")

@shape("annotations of one", 500, says="refused")
def _(n, k):
    return f"class C{k} {{\n  " + "@Nullable " * n + "String f;\n}\n"

@shape("annotations unknown", 500, says="refused")
def _(n, k):
    return f"class C{k} {{\n  " + times(n, lambda i: f"@A{i} ") + "int f;\n}\n"

@shape("modifiers", 500, says="refused")
def _(n, k):
    return f"class C{k} {{\n  " + "static " * n + "int f;\n}\n"

# Notes of rows: chains of causes that are long, that many rows share, or that many causes lead to.
@shape("notes of rows in one body", 60, 2000, copies=1, says="rejected", words=LONG)
def _(n, k):
    return f"class C{k} {{\n  int f(@Nullable String s) {{\n    int x = 0;\n" + "    x = x + s.length();\n" * n + "    return x;\n  }\n}\n"

@shape("notes of readers of a field", 60, 1000, copies=1, says="rejected", words=LONG)
def _(n, k):
    return (f"class C{k} {{\n  private String s;\n" + times(n, lambda i: f"  void w{i}(@Nullable String t) {{ s = t; }}\n  int r{i}() {{ return s.length(); }}\n") + "}\n")

@shape("notes of a method's callers", 60, 1000, copies=1, says="rejected", words=LONG)
def _(n, k):
    return f"class C{k} {{\n  private String p(String t) {{ return t; }}\n" + times(n, lambda i: f"  int c{i}(@Nullable String t) {{ return p(t).length(); }}\n") + "}\n"

@shape("notes of a chain of methods", 60, 1000, copies=1, says="rejected", words=LONG)
def _(n, k):
    return (f"class C{k} {{\n  int m(@Nullable String s) {{ return f0(s); }}\n" + times(n, lambda i: f"  private int f{i}(String s) {{ return s.length() + f{i + 1}(s); }}\n")
            + f"  private int f{n}(String s) {{ return 0; }}\n}}\n")

@shape("notes of what a constructor calls", 60, 1000, copies=1, says="rejected", words=LONG)
def _(n, k):
    return (f"class C{k} {{\n  C{k}(@Nullable String s) {{\n" + times(n, lambda i: f"    p{i}(s);\n") + "  }\n"
            + times(n, lambda i: f"  private int p{i}(String t) {{ return t.length(); }}\n") + "}\n")

@shape("notes of tests made void", 60, 1000, copies=1, says="rejected", words=LONG)
def _(n, k):
    return (f"class C{k} {{\n  @Nullable String s;\n  void g() {{ }}\n  int f() {{\n    int x = 0;\n"
            + "    if (s != null) { g(); x = x + s.length(); }\n" * n + "    return x;\n  }\n}\n")

@shape("notes of methods that override", 60, 4000, copies=1, says="rejected", words=LONG)
def _(n, k):
    return (f"class B{k} {{ @Nullable String m(@Nullable String t) {{ return t; }} }}\n"
            + times(n, lambda i: f"class D{k}x{i} extends B{k} {{ String m(String t) {{ return t; }} }}\n"))
