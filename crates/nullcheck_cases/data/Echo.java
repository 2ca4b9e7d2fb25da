class Echo {
  public static void main(final String[] words) {
    for (String word : words) System.out.println(word.length() + " " + word);
    System.out.println(words.length);
  }
}
