class Tree {
  Branch left;
  Branch right;
  Tree() {
    left = new Branch(this, new Leaf(this));
    right = new Branch(this, new Leaf(this));
  }
}
class Leaf { Tree tree; Leaf(@UnderInitialization Tree t) { tree = t; } }
class Branch {
  Tree tree;
  Leaf leaf;
  Branch(@UnderInitialization Tree t, @UnderInitialization Leaf l) { tree = t; leaf = l; }
}
