class Tree {
  private Tree left;
  private Tree right;
  private Tree parent;
  private int size;
  Tree(int n) { parent = null; size = n; if (n > 0) grow(this, n - 1); }
  private Tree(Tree p, int n) { parent = p; if (n > 0) grow(this, n - 1); }
  private static void grow(Tree of, int n) { of.left = new Tree(of, n); of.right = new Tree(of, n); }
  int count() { return 1 + (left == null ? 0 : left.count()) + (right == null ? 0 : right.count()); }
  Tree root() { Tree t = this; while (t.parent != null) t = t.parent; return t; }
}
