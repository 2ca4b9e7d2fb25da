class WhyHere {
  int size(WhyThere t) {
    return t.text.length();
  }
}
