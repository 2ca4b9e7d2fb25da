class StopGenerics {
  List<String> names;
}
