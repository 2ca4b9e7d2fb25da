class Tree {
  Branch left;
  Tree() { left = new Branch(this, new Leaf(this)); }
}
class Leaf { Tree tree; Leaf(@UnderInitialization Tree t) { tree = t; } }
class Branch { Leaf leaf; Branch(Tree t, Leaf l) { leaf = l; } }
