class Config { final String name; Config(String name) { this.name = name; } }
class Server {
  final Config config;
  Server(String name) {
    Config c = new Config(name);
    use(c);
    config = c;
  }
  static void use(Config c) { System.out.println(c.name); }
}
