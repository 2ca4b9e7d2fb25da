interface OtherAsks { boolean ready(); }
class OtherIdle { int ready() { return 1; } }
class OtherMeets extends OtherIdle implements OtherAsks { }
