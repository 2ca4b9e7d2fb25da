class WhyUnkeptField {
  WhyUnkeptField next;
  @Nullable String text;
  WhyUnkeptField(WhyUnkeptField other) {
    this.next = other;
  }
  int size() {
    if (this.next.text != null) {
      return this.next.text.length();
    }
    return 0;
  }
  String name() {
    if (next.next.text == null) {
      return "";
    }
    return next.next.text;
  }
}
