class Team {
  final Member lead;
  final Member deputy;
  int size = 0;

  Team(String lead, String deputy) {
    this.lead = new Member(this, lead);
    this.deputy = new Member(this, deputy);
    join(2);
  }

  private void join(int more) { size += more; }

  public static void main(String[] args) {
    Team team = new Team("Ann", "Bob");
    System.out.println(team.lead.team == team);
    System.out.println(team.lead == team.deputy);
    System.out.println(team.deputy.team.lead.name + " " + team.lead.team.deputy.name);
    System.out.println(team.size + " " + team.lead.seen);
  }
}

class Member {
  final Team team;
  final String name;
  final boolean seen;

  Member(@UnderInitialization Team team, String name) {
    this.team = team;
    this.name = name;
    seen = team.lead != null;
  }
}
