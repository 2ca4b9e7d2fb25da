class G0 {
  private @Nullable G0 next;
  private String tag;
  G0(String t) { this.tag = t; }
  private String pick(G0 o) {
    if (o == null) return this.tag;
    return o.tag;
  }
  String run() { return pick(next) + pick(this); }
}
class G1 {
  private @Nullable G1 next;
  private String tag;
  G1(String t) { this.tag = t; }
  private String pick(G1 o) {
    if (o == null) return this.tag;
    return o.tag;
  }
  String run() { return pick(next) + pick(this); }
}
class G2 {
  private @Nullable G2 next;
  private String tag;
  G2(String t) { this.tag = t; }
  private String pick(G2 o) {
    if (o == null) return this.tag;
    return o.tag;
  }
  String run() { return pick(next) + pick(this); }
}
class G3 {
  private @Nullable G3 next;
  private String tag;
  G3(String t) { this.tag = t; }
  private String pick(G3 o) {
    if (o == null) return this.tag;
    return o.tag;
  }
  String run() { return pick(next) + pick(this); }
}
class G4 {
  private @Nullable G4 next;
  private String tag;
  G4(String t) { this.tag = t; }
  private String pick(G4 o) {
    if (o == null) return this.tag;
    return o.tag;
  }
  String run() { return pick(next) + pick(this); }
}
class G5 {
  private @Nullable G5 next;
  private String tag;
  G5(String t) { this.tag = t; }
  private String pick(G5 o) {
    if (o == null) return this.tag;
    return o.tag;
  }
  String run() { return pick(next) + pick(this); }
}
class G6 {
  private @Nullable G6 next;
  private String tag;
  G6(String t) { this.tag = t; }
  private String pick(G6 o) {
    if (o == null) return this.tag;
    return o.tag;
  }
  String run() { return pick(next) + pick(this); }
}
class G7 {
  private @Nullable G7 next;
  private String tag;
  G7(String t) { this.tag = t; }
  private String pick(G7 o) {
    if (o == null) return this.tag;
    return o.tag;
  }
  String run() { return pick(next) + pick(this); }
}
class G8 {
  private @Nullable G8 next;
  private String tag;
  G8(String t) { this.tag = t; }
  private String pick(G8 o) {
    if (o == null) return this.tag;
    return o.tag;
  }
  String run() { return pick(next) + pick(this); }
}
class G9 {
  private @Nullable G9 next;
  private String tag;
  G9(String t) { this.tag = t; }
  private String pick(G9 o) {
    if (o == null) return this.tag;
    return o.tag;
  }
  String run() { return pick(next) + pick(this); }
}
class G10 {
  private @Nullable G10 next;
  private String tag;
  G10(String t) { this.tag = t; }
  private String pick(G10 o) {
    if (o == null) return this.tag;
    return o.tag;
  }
  String run() { return pick(next) + pick(this); }
}
class G11 {
  private @Nullable G11 next;
  private String tag;
  G11(String t) { this.tag = t; }
  private String pick(G11 o) {
    if (o == null) return this.tag;
    return o.tag;
  }
  String run() { return pick(next) + pick(this); }
}
class G12 {
  private @Nullable G12 next;
  private String tag;
  G12(String t) { this.tag = t; }
  private String pick(G12 o) {
    if (o == null) return this.tag;
    return o.tag;
  }
  String run() { return pick(next) + pick(this); }
}
class G13 {
  private @Nullable G13 next;
  private String tag;
  G13(String t) { this.tag = t; }
  private String pick(G13 o) {
    if (o == null) return this.tag;
    return o.tag;
  }
  String run() { return pick(next) + pick(this); }
}
class G14 {
  private @Nullable G14 next;
  private String tag;
  G14(String t) { this.tag = t; }
  private String pick(G14 o) {
    if (o == null) return this.tag;
    return o.tag;
  }
  String run() { return pick(next) + pick(this); }
}
class G15 {
  private @Nullable G15 next;
  private String tag;
  G15(String t) { this.tag = t; }
  private String pick(G15 o) {
    if (o == null) return this.tag;
    return o.tag;
  }
  String run() { return pick(next) + pick(this); }
}
class G16 {
  private @Nullable G16 next;
  private String tag;
  G16(String t) { this.tag = t; }
  private String pick(G16 o) {
    if (o == null) return this.tag;
    return o.tag;
  }
  String run() { return pick(next) + pick(this); }
}
class G17 {
  private @Nullable G17 next;
  private String tag;
  G17(String t) { this.tag = t; }
  private String pick(G17 o) {
    if (o == null) return this.tag;
    return o.tag;
  }
  String run() { return pick(next) + pick(this); }
}
class G18 {
  private @Nullable G18 next;
  private String tag;
  G18(String t) { this.tag = t; }
  private String pick(G18 o) {
    if (o == null) return this.tag;
    return o.tag;
  }
  String run() { return pick(next) + pick(this); }
}
class G19 {
  private @Nullable G19 next;
  private String tag;
  G19(String t) { this.tag = t; }
  private String pick(G19 o) {
    if (o == null) return this.tag;
    return o.tag;
  }
  String run() { return pick(next) + pick(this); }
}
class G20 {
  private @Nullable G20 next;
  private String tag;
  G20(String t) { this.tag = t; }
  private String pick(G20 o) {
    if (o == null) return this.tag;
    return o.tag;
  }
  String run() { return pick(next) + pick(this); }
}
class G21 {
  private @Nullable G21 next;
  private String tag;
  G21(String t) { this.tag = t; }
  private String pick(G21 o) {
    if (o == null) return this.tag;
    return o.tag;
  }
  String run() { return pick(next) + pick(this); }
}
class G22 {
  private @Nullable G22 next;
  private String tag;
  G22(String t) { this.tag = t; }
  private String pick(G22 o) {
    if (o == null) return this.tag;
    return o.tag;
  }
  String run() { return pick(next) + pick(this); }
}
class G23 {
  private @Nullable G23 next;
  private String tag;
  G23(String t) { this.tag = t; }
  private String pick(G23 o) {
    if (o == null) return this.tag;
    return o.tag;
  }
  String run() { return pick(next) + pick(this); }
}
class G24 {
  private @Nullable G24 next;
  private String tag;
  G24(String t) { this.tag = t; }
  private String pick(G24 o) {
    if (o == null) return this.tag;
    return o.tag;
  }
  String run() { return pick(next) + pick(this); }
}
class G25 {
  private @Nullable G25 next;
  private String tag;
  G25(String t) { this.tag = t; }
  private String pick(G25 o) {
    if (o == null) return this.tag;
    return o.tag;
  }
  String run() { return pick(next) + pick(this); }
}
class G26 {
  private @Nullable G26 next;
  private String tag;
  G26(String t) { this.tag = t; }
  private String pick(G26 o) {
    if (o == null) return this.tag;
    return o.tag;
  }
  String run() { return pick(next) + pick(this); }
}
class G27 {
  private @Nullable G27 next;
  private String tag;
  G27(String t) { this.tag = t; }
  private String pick(G27 o) {
    if (o == null) return this.tag;
    return o.tag;
  }
  String run() { return pick(next) + pick(this); }
}
class G28 {
  private @Nullable G28 next;
  private String tag;
  G28(String t) { this.tag = t; }
  private String pick(G28 o) {
    if (o == null) return this.tag;
    return o.tag;
  }
  String run() { return pick(next) + pick(this); }
}
class G29 {
  private @Nullable G29 next;
  private String tag;
  G29(String t) { this.tag = t; }
  private String pick(G29 o) {
    if (o == null) return this.tag;
    return o.tag;
  }
  String run() { return pick(next) + pick(this); }
}
class G30 {
  private @Nullable G30 next;
  private String tag;
  G30(String t) { this.tag = t; }
  private String pick(G30 o) {
    if (o == null) return this.tag;
    return o.tag;
  }
  String run() { return pick(next) + pick(this); }
}
class G31 {
  private @Nullable G31 next;
  private String tag;
  G31(String t) { this.tag = t; }
  private String pick(G31 o) {
    if (o == null) return this.tag;
    return o.tag;
  }
  String run() { return pick(next) + pick(this); }
}
class G32 {
  private @Nullable G32 next;
  private String tag;
  G32(String t) { this.tag = t; }
  private String pick(G32 o) {
    if (o == null) return this.tag;
    return o.tag;
  }
  String run() { return pick(next) + pick(this); }
}
class G33 {
  private @Nullable G33 next;
  private String tag;
  G33(String t) { this.tag = t; }
  private String pick(G33 o) {
    if (o == null) return this.tag;
    return o.tag;
  }
  String run() { return pick(next) + pick(this); }
}
class G34 {
  private @Nullable G34 next;
  private String tag;
  G34(String t) { this.tag = t; }
  private String pick(G34 o) {
    if (o == null) return this.tag;
    return o.tag;
  }
  String run() { return pick(next) + pick(this); }
}
class G35 {
  private @Nullable G35 next;
  private String tag;
  G35(String t) { this.tag = t; }
  private String pick(G35 o) {
    if (o == null) return this.tag;
    return o.tag;
  }
  String run() { return pick(next) + pick(this); }
}
class G36 {
  private @Nullable G36 next;
  private String tag;
  G36(String t) { this.tag = t; }
  private String pick(G36 o) {
    if (o == null) return this.tag;
    return o.tag;
  }
  String run() { return pick(next) + pick(this); }
}
class G37 {
  private @Nullable G37 next;
  private String tag;
  G37(String t) { this.tag = t; }
  private String pick(G37 o) {
    if (o == null) return this.tag;
    return o.tag;
  }
  String run() { return pick(next) + pick(this); }
}
class G38 {
  private @Nullable G38 next;
  private String tag;
  G38(String t) { this.tag = t; }
  private String pick(G38 o) {
    if (o == null) return this.tag;
    return o.tag;
  }
  String run() { return pick(next) + pick(this); }
}
class G39 {
  private @Nullable G39 next;
  private String tag;
  G39(String t) { this.tag = t; }
  private String pick(G39 o) {
    if (o == null) return this.tag;
    return o.tag;
  }
  String run() { return pick(next) + pick(this); }
}
class G40 {
  private @Nullable G40 next;
  private String tag;
  G40(String t) { this.tag = t; }
  private String pick(G40 o) {
    if (o == null) return this.tag;
    return o.tag;
  }
  String run() { return pick(next) + pick(this); }
}
class G41 {
  private @Nullable G41 next;
  private String tag;
  G41(String t) { this.tag = t; }
  private String pick(G41 o) {
    if (o == null) return this.tag;
    return o.tag;
  }
  String run() { return pick(next) + pick(this); }
}
class G42 {
  private @Nullable G42 next;
  private String tag;
  G42(String t) { this.tag = t; }
  private String pick(G42 o) {
    if (o == null) return this.tag;
    return o.tag;
  }
  String run() { return pick(next) + pick(this); }
}
class G43 {
  private @Nullable G43 next;
  private String tag;
  G43(String t) { this.tag = t; }
  private String pick(G43 o) {
    if (o == null) return this.tag;
    return o.tag;
  }
  String run() { return pick(next) + pick(this); }
}
class G44 {
  private @Nullable G44 next;
  private String tag;
  G44(String t) { this.tag = t; }
  private String pick(G44 o) {
    if (o == null) return this.tag;
    return o.tag;
  }
  String run() { return pick(next) + pick(this); }
}
class G45 {
  private @Nullable G45 next;
  private String tag;
  G45(String t) { this.tag = t; }
  private String pick(G45 o) {
    if (o == null) return this.tag;
    return o.tag;
  }
  String run() { return pick(next) + pick(this); }
}
class G46 {
  private @Nullable G46 next;
  private String tag;
  G46(String t) { this.tag = t; }
  private String pick(G46 o) {
    if (o == null) return this.tag;
    return o.tag;
  }
  String run() { return pick(next) + pick(this); }
}
class G47 {
  private @Nullable G47 next;
  private String tag;
  G47(String t) { this.tag = t; }
  private String pick(G47 o) {
    if (o == null) return this.tag;
    return o.tag;
  }
  String run() { return pick(next) + pick(this); }
}
class G48 {
  private @Nullable G48 next;
  private String tag;
  G48(String t) { this.tag = t; }
  private String pick(G48 o) {
    if (o == null) return this.tag;
    return o.tag;
  }
  String run() { return pick(next) + pick(this); }
}
class G49 {
  private @Nullable G49 next;
  private String tag;
  G49(String t) { this.tag = t; }
  private String pick(G49 o) {
    if (o == null) return this.tag;
    return o.tag;
  }
  String run() { return pick(next) + pick(this); }
}
class G50 {
  private @Nullable G50 next;
  private String tag;
  G50(String t) { this.tag = t; }
  private String pick(G50 o) {
    if (o == null) return this.tag;
    return o.tag;
  }
  String run() { return pick(next) + pick(this); }
}
class G51 {
  private @Nullable G51 next;
  private String tag;
  G51(String t) { this.tag = t; }
  private String pick(G51 o) {
    if (o == null) return this.tag;
    return o.tag;
  }
  String run() { return pick(next) + pick(this); }
}
class G52 {
  private @Nullable G52 next;
  private String tag;
  G52(String t) { this.tag = t; }
  private String pick(G52 o) {
    if (o == null) return this.tag;
    return o.tag;
  }
  String run() { return pick(next) + pick(this); }
}
class G53 {
  private @Nullable G53 next;
  private String tag;
  G53(String t) { this.tag = t; }
  private String pick(G53 o) {
    if (o == null) return this.tag;
    return o.tag;
  }
  String run() { return pick(next) + pick(this); }
}
class G54 {
  private @Nullable G54 next;
  private String tag;
  G54(String t) { this.tag = t; }
  private String pick(G54 o) {
    if (o == null) return this.tag;
    return o.tag;
  }
  String run() { return pick(next) + pick(this); }
}
class G55 {
  private @Nullable G55 next;
  private String tag;
  G55(String t) { this.tag = t; }
  private String pick(G55 o) {
    if (o == null) return this.tag;
    return o.tag;
  }
  String run() { return pick(next) + pick(this); }
}
class G56 {
  private @Nullable G56 next;
  private String tag;
  G56(String t) { this.tag = t; }
  private String pick(G56 o) {
    if (o == null) return this.tag;
    return o.tag;
  }
  String run() { return pick(next) + pick(this); }
}
class G57 {
  private @Nullable G57 next;
  private String tag;
  G57(String t) { this.tag = t; }
  private String pick(G57 o) {
    if (o == null) return this.tag;
    return o.tag;
  }
  String run() { return pick(next) + pick(this); }
}
class G58 {
  private @Nullable G58 next;
  private String tag;
  G58(String t) { this.tag = t; }
  private String pick(G58 o) {
    if (o == null) return this.tag;
    return o.tag;
  }
  String run() { return pick(next) + pick(this); }
}
class G59 {
  private @Nullable G59 next;
  private String tag;
  G59(String t) { this.tag = t; }
  private String pick(G59 o) {
    if (o == null) return this.tag;
    return o.tag;
  }
  String run() { return pick(next) + pick(this); }
}
class G60 {
  private @Nullable G60 next;
  private String tag;
  G60(String t) { this.tag = t; }
  private String pick(G60 o) {
    if (o == null) return this.tag;
    return o.tag;
  }
  String run() { return pick(next) + pick(this); }
}
class G61 {
  private @Nullable G61 next;
  private String tag;
  G61(String t) { this.tag = t; }
  private String pick(G61 o) {
    if (o == null) return this.tag;
    return o.tag;
  }
  String run() { return pick(next) + pick(this); }
}
class G62 {
  private @Nullable G62 next;
  private String tag;
  G62(String t) { this.tag = t; }
  private String pick(G62 o) {
    if (o == null) return this.tag;
    return o.tag;
  }
  String run() { return pick(next) + pick(this); }
}
class G63 {
  private @Nullable G63 next;
  private String tag;
  G63(String t) { this.tag = t; }
  private String pick(G63 o) {
    if (o == null) return this.tag;
    return o.tag;
  }
  String run() { return pick(next) + pick(this); }
}
class G64 {
  private @Nullable G64 next;
  private String tag;
  G64(String t) { this.tag = t; }
  private String pick(G64 o) {
    if (o == null) return this.tag;
    return o.tag;
  }
  String run() { return pick(next) + pick(this); }
}
class G65 {
  private @Nullable G65 next;
  private String tag;
  G65(String t) { this.tag = t; }
  private String pick(G65 o) {
    if (o == null) return this.tag;
    return o.tag;
  }
  String run() { return pick(next) + pick(this); }
}
class G66 {
  private @Nullable G66 next;
  private String tag;
  G66(String t) { this.tag = t; }
  private String pick(G66 o) {
    if (o == null) return this.tag;
    return o.tag;
  }
  String run() { return pick(next) + pick(this); }
}
class G67 {
  private @Nullable G67 next;
  private String tag;
  G67(String t) { this.tag = t; }
  private String pick(G67 o) {
    if (o == null) return this.tag;
    return o.tag;
  }
  String run() { return pick(next) + pick(this); }
}
class G68 {
  private @Nullable G68 next;
  private String tag;
  G68(String t) { this.tag = t; }
  private String pick(G68 o) {
    if (o == null) return this.tag;
    return o.tag;
  }
  String run() { return pick(next) + pick(this); }
}
class G69 {
  private @Nullable G69 next;
  private String tag;
  G69(String t) { this.tag = t; }
  private String pick(G69 o) {
    if (o == null) return this.tag;
    return o.tag;
  }
  String run() { return pick(next) + pick(this); }
}
class G70 {
  private @Nullable G70 next;
  private String tag;
  G70(String t) { this.tag = t; }
  private String pick(G70 o) {
    if (o == null) return this.tag;
    return o.tag;
  }
  String run() { return pick(next) + pick(this); }
}
class G71 {
  private @Nullable G71 next;
  private String tag;
  G71(String t) { this.tag = t; }
  private String pick(G71 o) {
    if (o == null) return this.tag;
    return o.tag;
  }
  String run() { return pick(next) + pick(this); }
}
class G72 {
  private @Nullable G72 next;
  private String tag;
  G72(String t) { this.tag = t; }
  private String pick(G72 o) {
    if (o == null) return this.tag;
    return o.tag;
  }
  String run() { return pick(next) + pick(this); }
}
class G73 {
  private @Nullable G73 next;
  private String tag;
  G73(String t) { this.tag = t; }
  private String pick(G73 o) {
    if (o == null) return this.tag;
    return o.tag;
  }
  String run() { return pick(next) + pick(this); }
}
class G74 {
  private @Nullable G74 next;
  private String tag;
  G74(String t) { this.tag = t; }
  private String pick(G74 o) {
    if (o == null) return this.tag;
    return o.tag;
  }
  String run() { return pick(next) + pick(this); }
}
class G75 {
  private @Nullable G75 next;
  private String tag;
  G75(String t) { this.tag = t; }
  private String pick(G75 o) {
    if (o == null) return this.tag;
    return o.tag;
  }
  String run() { return pick(next) + pick(this); }
}
class G76 {
  private @Nullable G76 next;
  private String tag;
  G76(String t) { this.tag = t; }
  private String pick(G76 o) {
    if (o == null) return this.tag;
    return o.tag;
  }
  String run() { return pick(next) + pick(this); }
}
class G77 {
  private @Nullable G77 next;
  private String tag;
  G77(String t) { this.tag = t; }
  private String pick(G77 o) {
    if (o == null) return this.tag;
    return o.tag;
  }
  String run() { return pick(next) + pick(this); }
}
class G78 {
  private @Nullable G78 next;
  private String tag;
  G78(String t) { this.tag = t; }
  private String pick(G78 o) {
    if (o == null) return this.tag;
    return o.tag;
  }
  String run() { return pick(next) + pick(this); }
}
class G79 {
  private @Nullable G79 next;
  private String tag;
  G79(String t) { this.tag = t; }
  private String pick(G79 o) {
    if (o == null) return this.tag;
    return o.tag;
  }
  String run() { return pick(next) + pick(this); }
}
class G80 {
  private @Nullable G80 next;
  private String tag;
  G80(String t) { this.tag = t; }
  private String pick(G80 o) {
    if (o == null) return this.tag;
    return o.tag;
  }
  String run() { return pick(next) + pick(this); }
}
class G81 {
  private @Nullable G81 next;
  private String tag;
  G81(String t) { this.tag = t; }
  private String pick(G81 o) {
    if (o == null) return this.tag;
    return o.tag;
  }
  String run() { return pick(next) + pick(this); }
}
class G82 {
  private @Nullable G82 next;
  private String tag;
  G82(String t) { this.tag = t; }
  private String pick(G82 o) {
    if (o == null) return this.tag;
    return o.tag;
  }
  String run() { return pick(next) + pick(this); }
}
class G83 {
  private @Nullable G83 next;
  private String tag;
  G83(String t) { this.tag = t; }
  private String pick(G83 o) {
    if (o == null) return this.tag;
    return o.tag;
  }
  String run() { return pick(next) + pick(this); }
}
class G84 {
  private @Nullable G84 next;
  private String tag;
  G84(String t) { this.tag = t; }
  private String pick(G84 o) {
    if (o == null) return this.tag;
    return o.tag;
  }
  String run() { return pick(next) + pick(this); }
}
class G85 {
  private @Nullable G85 next;
  private String tag;
  G85(String t) { this.tag = t; }
  private String pick(G85 o) {
    if (o == null) return this.tag;
    return o.tag;
  }
  String run() { return pick(next) + pick(this); }
}
class G86 {
  private @Nullable G86 next;
  private String tag;
  G86(String t) { this.tag = t; }
  private String pick(G86 o) {
    if (o == null) return this.tag;
    return o.tag;
  }
  String run() { return pick(next) + pick(this); }
}
class G87 {
  private @Nullable G87 next;
  private String tag;
  G87(String t) { this.tag = t; }
  private String pick(G87 o) {
    if (o == null) return this.tag;
    return o.tag;
  }
  String run() { return pick(next) + pick(this); }
}
class G88 {
  private @Nullable G88 next;
  private String tag;
  G88(String t) { this.tag = t; }
  private String pick(G88 o) {
    if (o == null) return this.tag;
    return o.tag;
  }
  String run() { return pick(next) + pick(this); }
}
class G89 {
  private @Nullable G89 next;
  private String tag;
  G89(String t) { this.tag = t; }
  private String pick(G89 o) {
    if (o == null) return this.tag;
    return o.tag;
  }
  String run() { return pick(next) + pick(this); }
}
class G90 {
  private @Nullable G90 next;
  private String tag;
  G90(String t) { this.tag = t; }
  private String pick(G90 o) {
    if (o == null) return this.tag;
    return o.tag;
  }
  String run() { return pick(next) + pick(this); }
}
class G91 {
  private @Nullable G91 next;
  private String tag;
  G91(String t) { this.tag = t; }
  private String pick(G91 o) {
    if (o == null) return this.tag;
    return o.tag;
  }
  String run() { return pick(next) + pick(this); }
}
class G92 {
  private @Nullable G92 next;
  private String tag;
  G92(String t) { this.tag = t; }
  private String pick(G92 o) {
    if (o == null) return this.tag;
    return o.tag;
  }
  String run() { return pick(next) + pick(this); }
}
class G93 {
  private @Nullable G93 next;
  private String tag;
  G93(String t) { this.tag = t; }
  private String pick(G93 o) {
    if (o == null) return this.tag;
    return o.tag;
  }
  String run() { return pick(next) + pick(this); }
}
class G94 {
  private @Nullable G94 next;
  private String tag;
  G94(String t) { this.tag = t; }
  private String pick(G94 o) {
    if (o == null) return this.tag;
    return o.tag;
  }
  String run() { return pick(next) + pick(this); }
}
class G95 {
  private @Nullable G95 next;
  private String tag;
  G95(String t) { this.tag = t; }
  private String pick(G95 o) {
    if (o == null) return this.tag;
    return o.tag;
  }
  String run() { return pick(next) + pick(this); }
}
class G96 {
  private @Nullable G96 next;
  private String tag;
  G96(String t) { this.tag = t; }
  private String pick(G96 o) {
    if (o == null) return this.tag;
    return o.tag;
  }
  String run() { return pick(next) + pick(this); }
}
class G97 {
  private @Nullable G97 next;
  private String tag;
  G97(String t) { this.tag = t; }
  private String pick(G97 o) {
    if (o == null) return this.tag;
    return o.tag;
  }
  String run() { return pick(next) + pick(this); }
}
class G98 {
  private @Nullable G98 next;
  private String tag;
  G98(String t) { this.tag = t; }
  private String pick(G98 o) {
    if (o == null) return this.tag;
    return o.tag;
  }
  String run() { return pick(next) + pick(this); }
}
class G99 {
  private @Nullable G99 next;
  private String tag;
  G99(String t) { this.tag = t; }
  private String pick(G99 o) {
    if (o == null) return this.tag;
    return o.tag;
  }
  String run() { return pick(next) + pick(this); }
}
class G100 {
  private @Nullable G100 next;
  private String tag;
  G100(String t) { this.tag = t; }
  private String pick(G100 o) {
    if (o == null) return this.tag;
    return o.tag;
  }
  String run() { return pick(next) + pick(this); }
}
class G101 {
  private @Nullable G101 next;
  private String tag;
  G101(String t) { this.tag = t; }
  private String pick(G101 o) {
    if (o == null) return this.tag;
    return o.tag;
  }
  String run() { return pick(next) + pick(this); }
}
class G102 {
  private @Nullable G102 next;
  private String tag;
  G102(String t) { this.tag = t; }
  private String pick(G102 o) {
    if (o == null) return this.tag;
    return o.tag;
  }
  String run() { return pick(next) + pick(this); }
}
class G103 {
  private @Nullable G103 next;
  private String tag;
  G103(String t) { this.tag = t; }
  private String pick(G103 o) {
    if (o == null) return this.tag;
    return o.tag;
  }
  String run() { return pick(next) + pick(this); }
}
class G104 {
  private @Nullable G104 next;
  private String tag;
  G104(String t) { this.tag = t; }
  private String pick(G104 o) {
    if (o == null) return this.tag;
    return o.tag;
  }
  String run() { return pick(next) + pick(this); }
}
class G105 {
  private @Nullable G105 next;
  private String tag;
  G105(String t) { this.tag = t; }
  private String pick(G105 o) {
    if (o == null) return this.tag;
    return o.tag;
  }
  String run() { return pick(next) + pick(this); }
}
class G106 {
  private @Nullable G106 next;
  private String tag;
  G106(String t) { this.tag = t; }
  private String pick(G106 o) {
    if (o == null) return this.tag;
    return o.tag;
  }
  String run() { return pick(next) + pick(this); }
}
class G107 {
  private @Nullable G107 next;
  private String tag;
  G107(String t) { this.tag = t; }
  private String pick(G107 o) {
    if (o == null) return this.tag;
    return o.tag;
  }
  String run() { return pick(next) + pick(this); }
}
class G108 {
  private @Nullable G108 next;
  private String tag;
  G108(String t) { this.tag = t; }
  private String pick(G108 o) {
    if (o == null) return this.tag;
    return o.tag;
  }
  String run() { return pick(next) + pick(this); }
}
class G109 {
  private @Nullable G109 next;
  private String tag;
  G109(String t) { this.tag = t; }
  private String pick(G109 o) {
    if (o == null) return this.tag;
    return o.tag;
  }
  String run() { return pick(next) + pick(this); }
}
class G110 {
  private @Nullable G110 next;
  private String tag;
  G110(String t) { this.tag = t; }
  private String pick(G110 o) {
    if (o == null) return this.tag;
    return o.tag;
  }
  String run() { return pick(next) + pick(this); }
}
class G111 {
  private @Nullable G111 next;
  private String tag;
  G111(String t) { this.tag = t; }
  private String pick(G111 o) {
    if (o == null) return this.tag;
    return o.tag;
  }
  String run() { return pick(next) + pick(this); }
}
class G112 {
  private @Nullable G112 next;
  private String tag;
  G112(String t) { this.tag = t; }
  private String pick(G112 o) {
    if (o == null) return this.tag;
    return o.tag;
  }
  String run() { return pick(next) + pick(this); }
}
class G113 {
  private @Nullable G113 next;
  private String tag;
  G113(String t) { this.tag = t; }
  private String pick(G113 o) {
    if (o == null) return this.tag;
    return o.tag;
  }
  String run() { return pick(next) + pick(this); }
}
class G114 {
  private @Nullable G114 next;
  private String tag;
  G114(String t) { this.tag = t; }
  private String pick(G114 o) {
    if (o == null) return this.tag;
    return o.tag;
  }
  String run() { return pick(next) + pick(this); }
}
class G115 {
  private @Nullable G115 next;
  private String tag;
  G115(String t) { this.tag = t; }
  private String pick(G115 o) {
    if (o == null) return this.tag;
    return o.tag;
  }
  String run() { return pick(next) + pick(this); }
}
class G116 {
  private @Nullable G116 next;
  private String tag;
  G116(String t) { this.tag = t; }
  private String pick(G116 o) {
    if (o == null) return this.tag;
    return o.tag;
  }
  String run() { return pick(next) + pick(this); }
}
class G117 {
  private @Nullable G117 next;
  private String tag;
  G117(String t) { this.tag = t; }
  private String pick(G117 o) {
    if (o == null) return this.tag;
    return o.tag;
  }
  String run() { return pick(next) + pick(this); }
}
class G118 {
  private @Nullable G118 next;
  private String tag;
  G118(String t) { this.tag = t; }
  private String pick(G118 o) {
    if (o == null) return this.tag;
    return o.tag;
  }
  String run() { return pick(next) + pick(this); }
}
class G119 {
  private @Nullable G119 next;
  private String tag;
  G119(String t) { this.tag = t; }
  private String pick(G119 o) {
    if (o == null) return this.tag;
    return o.tag;
  }
  String run() { return pick(next) + pick(this); }
}
class G120 {
  private @Nullable G120 next;
  private String tag;
  G120(String t) { this.tag = t; }
  private String pick(G120 o) {
    if (o == null) return this.tag;
    return o.tag;
  }
  String run() { return pick(next) + pick(this); }
}
class G121 {
  private @Nullable G121 next;
  private String tag;
  G121(String t) { this.tag = t; }
  private String pick(G121 o) {
    if (o == null) return this.tag;
    return o.tag;
  }
  String run() { return pick(next) + pick(this); }
}
class G122 {
  private @Nullable G122 next;
  private String tag;
  G122(String t) { this.tag = t; }
  private String pick(G122 o) {
    if (o == null) return this.tag;
    return o.tag;
  }
  String run() { return pick(next) + pick(this); }
}
class G123 {
  private @Nullable G123 next;
  private String tag;
  G123(String t) { this.tag = t; }
  private String pick(G123 o) {
    if (o == null) return this.tag;
    return o.tag;
  }
  String run() { return pick(next) + pick(this); }
}
class G124 {
  private @Nullable G124 next;
  private String tag;
  G124(String t) { this.tag = t; }
  private String pick(G124 o) {
    if (o == null) return this.tag;
    return o.tag;
  }
  String run() { return pick(next) + pick(this); }
}
class G125 {
  private @Nullable G125 next;
  private String tag;
  G125(String t) { this.tag = t; }
  private String pick(G125 o) {
    if (o == null) return this.tag;
    return o.tag;
  }
  String run() { return pick(next) + pick(this); }
}
class G126 {
  private @Nullable G126 next;
  private String tag;
  G126(String t) { this.tag = t; }
  private String pick(G126 o) {
    if (o == null) return this.tag;
    return o.tag;
  }
  String run() { return pick(next) + pick(this); }
}
class G127 {
  private @Nullable G127 next;
  private String tag;
  G127(String t) { this.tag = t; }
  private String pick(G127 o) {
    if (o == null) return this.tag;
    return o.tag;
  }
  String run() { return pick(next) + pick(this); }
}
class G128 {
  private @Nullable G128 next;
  private String tag;
  G128(String t) { this.tag = t; }
  private String pick(G128 o) {
    if (o == null) return this.tag;
    return o.tag;
  }
  String run() { return pick(next) + pick(this); }
}
class G129 {
  private @Nullable G129 next;
  private String tag;
  G129(String t) { this.tag = t; }
  private String pick(G129 o) {
    if (o == null) return this.tag;
    return o.tag;
  }
  String run() { return pick(next) + pick(this); }
}
class G130 {
  private @Nullable G130 next;
  private String tag;
  G130(String t) { this.tag = t; }
  private String pick(G130 o) {
    if (o == null) return this.tag;
    return o.tag;
  }
  String run() { return pick(next) + pick(this); }
}
class G131 {
  private @Nullable G131 next;
  private String tag;
  G131(String t) { this.tag = t; }
  private String pick(G131 o) {
    if (o == null) return this.tag;
    return o.tag;
  }
  String run() { return pick(next) + pick(this); }
}
class G132 {
  private @Nullable G132 next;
  private String tag;
  G132(String t) { this.tag = t; }
  private String pick(G132 o) {
    if (o == null) return this.tag;
    return o.tag;
  }
  String run() { return pick(next) + pick(this); }
}
class G133 {
  private @Nullable G133 next;
  private String tag;
  G133(String t) { this.tag = t; }
  private String pick(G133 o) {
    if (o == null) return this.tag;
    return o.tag;
  }
  String run() { return pick(next) + pick(this); }
}
class G134 {
  private @Nullable G134 next;
  private String tag;
  G134(String t) { this.tag = t; }
  private String pick(G134 o) {
    if (o == null) return this.tag;
    return o.tag;
  }
  String run() { return pick(next) + pick(this); }
}
class G135 {
  private @Nullable G135 next;
  private String tag;
  G135(String t) { this.tag = t; }
  private String pick(G135 o) {
    if (o == null) return this.tag;
    return o.tag;
  }
  String run() { return pick(next) + pick(this); }
}
class G136 {
  private @Nullable G136 next;
  private String tag;
  G136(String t) { this.tag = t; }
  private String pick(G136 o) {
    if (o == null) return this.tag;
    return o.tag;
  }
  String run() { return pick(next) + pick(this); }
}
class G137 {
  private @Nullable G137 next;
  private String tag;
  G137(String t) { this.tag = t; }
  private String pick(G137 o) {
    if (o == null) return this.tag;
    return o.tag;
  }
  String run() { return pick(next) + pick(this); }
}
class G138 {
  private @Nullable G138 next;
  private String tag;
  G138(String t) { this.tag = t; }
  private String pick(G138 o) {
    if (o == null) return this.tag;
    return o.tag;
  }
  String run() { return pick(next) + pick(this); }
}
class G139 {
  private @Nullable G139 next;
  private String tag;
  G139(String t) { this.tag = t; }
  private String pick(G139 o) {
    if (o == null) return this.tag;
    return o.tag;
  }
  String run() { return pick(next) + pick(this); }
}
class G140 {
  private @Nullable G140 next;
  private String tag;
  G140(String t) { this.tag = t; }
  private String pick(G140 o) {
    if (o == null) return this.tag;
    return o.tag;
  }
  String run() { return pick(next) + pick(this); }
}
class G141 {
  private @Nullable G141 next;
  private String tag;
  G141(String t) { this.tag = t; }
  private String pick(G141 o) {
    if (o == null) return this.tag;
    return o.tag;
  }
  String run() { return pick(next) + pick(this); }
}
class G142 {
  private @Nullable G142 next;
  private String tag;
  G142(String t) { this.tag = t; }
  private String pick(G142 o) {
    if (o == null) return this.tag;
    return o.tag;
  }
  String run() { return pick(next) + pick(this); }
}
class G143 {
  private @Nullable G143 next;
  private String tag;
  G143(String t) { this.tag = t; }
  private String pick(G143 o) {
    if (o == null) return this.tag;
    return o.tag;
  }
  String run() { return pick(next) + pick(this); }
}
class G144 {
  private @Nullable G144 next;
  private String tag;
  G144(String t) { this.tag = t; }
  private String pick(G144 o) {
    if (o == null) return this.tag;
    return o.tag;
  }
  String run() { return pick(next) + pick(this); }
}
class G145 {
  private @Nullable G145 next;
  private String tag;
  G145(String t) { this.tag = t; }
  private String pick(G145 o) {
    if (o == null) return this.tag;
    return o.tag;
  }
  String run() { return pick(next) + pick(this); }
}
class G146 {
  private @Nullable G146 next;
  private String tag;
  G146(String t) { this.tag = t; }
  private String pick(G146 o) {
    if (o == null) return this.tag;
    return o.tag;
  }
  String run() { return pick(next) + pick(this); }
}
class G147 {
  private @Nullable G147 next;
  private String tag;
  G147(String t) { this.tag = t; }
  private String pick(G147 o) {
    if (o == null) return this.tag;
    return o.tag;
  }
  String run() { return pick(next) + pick(this); }
}
class G148 {
  private @Nullable G148 next;
  private String tag;
  G148(String t) { this.tag = t; }
  private String pick(G148 o) {
    if (o == null) return this.tag;
    return o.tag;
  }
  String run() { return pick(next) + pick(this); }
}
class G149 {
  private @Nullable G149 next;
  private String tag;
  G149(String t) { this.tag = t; }
  private String pick(G149 o) {
    if (o == null) return this.tag;
    return o.tag;
  }
  String run() { return pick(next) + pick(this); }
}
class G150 {
  private @Nullable G150 next;
  private String tag;
  G150(String t) { this.tag = t; }
  private String pick(G150 o) {
    if (o == null) return this.tag;
    return o.tag;
  }
  String run() { return pick(next) + pick(this); }
}
class G151 {
  private @Nullable G151 next;
  private String tag;
  G151(String t) { this.tag = t; }
  private String pick(G151 o) {
    if (o == null) return this.tag;
    return o.tag;
  }
  String run() { return pick(next) + pick(this); }
}
class G152 {
  private @Nullable G152 next;
  private String tag;
  G152(String t) { this.tag = t; }
  private String pick(G152 o) {
    if (o == null) return this.tag;
    return o.tag;
  }
  String run() { return pick(next) + pick(this); }
}
class G153 {
  private @Nullable G153 next;
  private String tag;
  G153(String t) { this.tag = t; }
  private String pick(G153 o) {
    if (o == null) return this.tag;
    return o.tag;
  }
  String run() { return pick(next) + pick(this); }
}
class G154 {
  private @Nullable G154 next;
  private String tag;
  G154(String t) { this.tag = t; }
  private String pick(G154 o) {
    if (o == null) return this.tag;
    return o.tag;
  }
  String run() { return pick(next) + pick(this); }
}
class G155 {
  private @Nullable G155 next;
  private String tag;
  G155(String t) { this.tag = t; }
  private String pick(G155 o) {
    if (o == null) return this.tag;
    return o.tag;
  }
  String run() { return pick(next) + pick(this); }
}
class G156 {
  private @Nullable G156 next;
  private String tag;
  G156(String t) { this.tag = t; }
  private String pick(G156 o) {
    if (o == null) return this.tag;
    return o.tag;
  }
  String run() { return pick(next) + pick(this); }
}
class G157 {
  private @Nullable G157 next;
  private String tag;
  G157(String t) { this.tag = t; }
  private String pick(G157 o) {
    if (o == null) return this.tag;
    return o.tag;
  }
  String run() { return pick(next) + pick(this); }
}
class G158 {
  private @Nullable G158 next;
  private String tag;
  G158(String t) { this.tag = t; }
  private String pick(G158 o) {
    if (o == null) return this.tag;
    return o.tag;
  }
  String run() { return pick(next) + pick(this); }
}
class G159 {
  private @Nullable G159 next;
  private String tag;
  G159(String t) { this.tag = t; }
  private String pick(G159 o) {
    if (o == null) return this.tag;
    return o.tag;
  }
  String run() { return pick(next) + pick(this); }
}
class G160 {
  private @Nullable G160 next;
  private String tag;
  G160(String t) { this.tag = t; }
  private String pick(G160 o) {
    if (o == null) return this.tag;
    return o.tag;
  }
  String run() { return pick(next) + pick(this); }
}
class G161 {
  private @Nullable G161 next;
  private String tag;
  G161(String t) { this.tag = t; }
  private String pick(G161 o) {
    if (o == null) return this.tag;
    return o.tag;
  }
  String run() { return pick(next) + pick(this); }
}
class G162 {
  private @Nullable G162 next;
  private String tag;
  G162(String t) { this.tag = t; }
  private String pick(G162 o) {
    if (o == null) return this.tag;
    return o.tag;
  }
  String run() { return pick(next) + pick(this); }
}
class G163 {
  private @Nullable G163 next;
  private String tag;
  G163(String t) { this.tag = t; }
  private String pick(G163 o) {
    if (o == null) return this.tag;
    return o.tag;
  }
  String run() { return pick(next) + pick(this); }
}
class G164 {
  private @Nullable G164 next;
  private String tag;
  G164(String t) { this.tag = t; }
  private String pick(G164 o) {
    if (o == null) return this.tag;
    return o.tag;
  }
  String run() { return pick(next) + pick(this); }
}
class G165 {
  private @Nullable G165 next;
  private String tag;
  G165(String t) { this.tag = t; }
  private String pick(G165 o) {
    if (o == null) return this.tag;
    return o.tag;
  }
  String run() { return pick(next) + pick(this); }
}
class G166 {
  private @Nullable G166 next;
  private String tag;
  G166(String t) { this.tag = t; }
  private String pick(G166 o) {
    if (o == null) return this.tag;
    return o.tag;
  }
  String run() { return pick(next) + pick(this); }
}
class G167 {
  private @Nullable G167 next;
  private String tag;
  G167(String t) { this.tag = t; }
  private String pick(G167 o) {
    if (o == null) return this.tag;
    return o.tag;
  }
  String run() { return pick(next) + pick(this); }
}
class G168 {
  private @Nullable G168 next;
  private String tag;
  G168(String t) { this.tag = t; }
  private String pick(G168 o) {
    if (o == null) return this.tag;
    return o.tag;
  }
  String run() { return pick(next) + pick(this); }
}
class G169 {
  private @Nullable G169 next;
  private String tag;
  G169(String t) { this.tag = t; }
  private String pick(G169 o) {
    if (o == null) return this.tag;
    return o.tag;
  }
  String run() { return pick(next) + pick(this); }
}
class G170 {
  private @Nullable G170 next;
  private String tag;
  G170(String t) { this.tag = t; }
  private String pick(G170 o) {
    if (o == null) return this.tag;
    return o.tag;
  }
  String run() { return pick(next) + pick(this); }
}
class G171 {
  private @Nullable G171 next;
  private String tag;
  G171(String t) { this.tag = t; }
  private String pick(G171 o) {
    if (o == null) return this.tag;
    return o.tag;
  }
  String run() { return pick(next) + pick(this); }
}
class G172 {
  private @Nullable G172 next;
  private String tag;
  G172(String t) { this.tag = t; }
  private String pick(G172 o) {
    if (o == null) return this.tag;
    return o.tag;
  }
  String run() { return pick(next) + pick(this); }
}
class G173 {
  private @Nullable G173 next;
  private String tag;
  G173(String t) { this.tag = t; }
  private String pick(G173 o) {
    if (o == null) return this.tag;
    return o.tag;
  }
  String run() { return pick(next) + pick(this); }
}
class G174 {
  private @Nullable G174 next;
  private String tag;
  G174(String t) { this.tag = t; }
  private String pick(G174 o) {
    if (o == null) return this.tag;
    return o.tag;
  }
  String run() { return pick(next) + pick(this); }
}
class G175 {
  private @Nullable G175 next;
  private String tag;
  G175(String t) { this.tag = t; }
  private String pick(G175 o) {
    if (o == null) return this.tag;
    return o.tag;
  }
  String run() { return pick(next) + pick(this); }
}
class G176 {
  private @Nullable G176 next;
  private String tag;
  G176(String t) { this.tag = t; }
  private String pick(G176 o) {
    if (o == null) return this.tag;
    return o.tag;
  }
  String run() { return pick(next) + pick(this); }
}
class G177 {
  private @Nullable G177 next;
  private String tag;
  G177(String t) { this.tag = t; }
  private String pick(G177 o) {
    if (o == null) return this.tag;
    return o.tag;
  }
  String run() { return pick(next) + pick(this); }
}
class G178 {
  private @Nullable G178 next;
  private String tag;
  G178(String t) { this.tag = t; }
  private String pick(G178 o) {
    if (o == null) return this.tag;
    return o.tag;
  }
  String run() { return pick(next) + pick(this); }
}
class G179 {
  private @Nullable G179 next;
  private String tag;
  G179(String t) { this.tag = t; }
  private String pick(G179 o) {
    if (o == null) return this.tag;
    return o.tag;
  }
  String run() { return pick(next) + pick(this); }
}
class G180 {
  private @Nullable G180 next;
  private String tag;
  G180(String t) { this.tag = t; }
  private String pick(G180 o) {
    if (o == null) return this.tag;
    return o.tag;
  }
  String run() { return pick(next) + pick(this); }
}
class G181 {
  private @Nullable G181 next;
  private String tag;
  G181(String t) { this.tag = t; }
  private String pick(G181 o) {
    if (o == null) return this.tag;
    return o.tag;
  }
  String run() { return pick(next) + pick(this); }
}
class G182 {
  private @Nullable G182 next;
  private String tag;
  G182(String t) { this.tag = t; }
  private String pick(G182 o) {
    if (o == null) return this.tag;
    return o.tag;
  }
  String run() { return pick(next) + pick(this); }
}
class G183 {
  private @Nullable G183 next;
  private String tag;
  G183(String t) { this.tag = t; }
  private String pick(G183 o) {
    if (o == null) return this.tag;
    return o.tag;
  }
  String run() { return pick(next) + pick(this); }
}
class G184 {
  private @Nullable G184 next;
  private String tag;
  G184(String t) { this.tag = t; }
  private String pick(G184 o) {
    if (o == null) return this.tag;
    return o.tag;
  }
  String run() { return pick(next) + pick(this); }
}
class G185 {
  private @Nullable G185 next;
  private String tag;
  G185(String t) { this.tag = t; }
  private String pick(G185 o) {
    if (o == null) return this.tag;
    return o.tag;
  }
  String run() { return pick(next) + pick(this); }
}
class G186 {
  private @Nullable G186 next;
  private String tag;
  G186(String t) { this.tag = t; }
  private String pick(G186 o) {
    if (o == null) return this.tag;
    return o.tag;
  }
  String run() { return pick(next) + pick(this); }
}
class G187 {
  private @Nullable G187 next;
  private String tag;
  G187(String t) { this.tag = t; }
  private String pick(G187 o) {
    if (o == null) return this.tag;
    return o.tag;
  }
  String run() { return pick(next) + pick(this); }
}
class G188 {
  private @Nullable G188 next;
  private String tag;
  G188(String t) { this.tag = t; }
  private String pick(G188 o) {
    if (o == null) return this.tag;
    return o.tag;
  }
  String run() { return pick(next) + pick(this); }
}
class G189 {
  private @Nullable G189 next;
  private String tag;
  G189(String t) { this.tag = t; }
  private String pick(G189 o) {
    if (o == null) return this.tag;
    return o.tag;
  }
  String run() { return pick(next) + pick(this); }
}
class G190 {
  private @Nullable G190 next;
  private String tag;
  G190(String t) { this.tag = t; }
  private String pick(G190 o) {
    if (o == null) return this.tag;
    return o.tag;
  }
  String run() { return pick(next) + pick(this); }
}
class G191 {
  private @Nullable G191 next;
  private String tag;
  G191(String t) { this.tag = t; }
  private String pick(G191 o) {
    if (o == null) return this.tag;
    return o.tag;
  }
  String run() { return pick(next) + pick(this); }
}
class G192 {
  private @Nullable G192 next;
  private String tag;
  G192(String t) { this.tag = t; }
  private String pick(G192 o) {
    if (o == null) return this.tag;
    return o.tag;
  }
  String run() { return pick(next) + pick(this); }
}
class G193 {
  private @Nullable G193 next;
  private String tag;
  G193(String t) { this.tag = t; }
  private String pick(G193 o) {
    if (o == null) return this.tag;
    return o.tag;
  }
  String run() { return pick(next) + pick(this); }
}
class G194 {
  private @Nullable G194 next;
  private String tag;
  G194(String t) { this.tag = t; }
  private String pick(G194 o) {
    if (o == null) return this.tag;
    return o.tag;
  }
  String run() { return pick(next) + pick(this); }
}
class G195 {
  private @Nullable G195 next;
  private String tag;
  G195(String t) { this.tag = t; }
  private String pick(G195 o) {
    if (o == null) return this.tag;
    return o.tag;
  }
  String run() { return pick(next) + pick(this); }
}
class G196 {
  private @Nullable G196 next;
  private String tag;
  G196(String t) { this.tag = t; }
  private String pick(G196 o) {
    if (o == null) return this.tag;
    return o.tag;
  }
  String run() { return pick(next) + pick(this); }
}
class G197 {
  private @Nullable G197 next;
  private String tag;
  G197(String t) { this.tag = t; }
  private String pick(G197 o) {
    if (o == null) return this.tag;
    return o.tag;
  }
  String run() { return pick(next) + pick(this); }
}
class G198 {
  private @Nullable G198 next;
  private String tag;
  G198(String t) { this.tag = t; }
  private String pick(G198 o) {
    if (o == null) return this.tag;
    return o.tag;
  }
  String run() { return pick(next) + pick(this); }
}
class G199 {
  private @Nullable G199 next;
  private String tag;
  G199(String t) { this.tag = t; }
  private String pick(G199 o) {
    if (o == null) return this.tag;
    return o.tag;
  }
  String run() { return pick(next) + pick(this); }
}
class G200 {
  private @Nullable G200 next;
  private String tag;
  G200(String t) { this.tag = t; }
  private String pick(G200 o) {
    if (o == null) return this.tag;
    return o.tag;
  }
  String run() { return pick(next) + pick(this); }
}
class G201 {
  private @Nullable G201 next;
  private String tag;
  G201(String t) { this.tag = t; }
  private String pick(G201 o) {
    if (o == null) return this.tag;
    return o.tag;
  }
  String run() { return pick(next) + pick(this); }
}
class G202 {
  private @Nullable G202 next;
  private String tag;
  G202(String t) { this.tag = t; }
  private String pick(G202 o) {
    if (o == null) return this.tag;
    return o.tag;
  }
  String run() { return pick(next) + pick(this); }
}
class G203 {
  private @Nullable G203 next;
  private String tag;
  G203(String t) { this.tag = t; }
  private String pick(G203 o) {
    if (o == null) return this.tag;
    return o.tag;
  }
  String run() { return pick(next) + pick(this); }
}
class G204 {
  private @Nullable G204 next;
  private String tag;
  G204(String t) { this.tag = t; }
  private String pick(G204 o) {
    if (o == null) return this.tag;
    return o.tag;
  }
  String run() { return pick(next) + pick(this); }
}
class G205 {
  private @Nullable G205 next;
  private String tag;
  G205(String t) { this.tag = t; }
  private String pick(G205 o) {
    if (o == null) return this.tag;
    return o.tag;
  }
  String run() { return pick(next) + pick(this); }
}
class G206 {
  private @Nullable G206 next;
  private String tag;
  G206(String t) { this.tag = t; }
  private String pick(G206 o) {
    if (o == null) return this.tag;
    return o.tag;
  }
  String run() { return pick(next) + pick(this); }
}
class G207 {
  private @Nullable G207 next;
  private String tag;
  G207(String t) { this.tag = t; }
  private String pick(G207 o) {
    if (o == null) return this.tag;
    return o.tag;
  }
  String run() { return pick(next) + pick(this); }
}
class G208 {
  private @Nullable G208 next;
  private String tag;
  G208(String t) { this.tag = t; }
  private String pick(G208 o) {
    if (o == null) return this.tag;
    return o.tag;
  }
  String run() { return pick(next) + pick(this); }
}
class G209 {
  private @Nullable G209 next;
  private String tag;
  G209(String t) { this.tag = t; }
  private String pick(G209 o) {
    if (o == null) return this.tag;
    return o.tag;
  }
  String run() { return pick(next) + pick(this); }
}
class G210 {
  private @Nullable G210 next;
  private String tag;
  G210(String t) { this.tag = t; }
  private String pick(G210 o) {
    if (o == null) return this.tag;
    return o.tag;
  }
  String run() { return pick(next) + pick(this); }
}
class G211 {
  private @Nullable G211 next;
  private String tag;
  G211(String t) { this.tag = t; }
  private String pick(G211 o) {
    if (o == null) return this.tag;
    return o.tag;
  }
  String run() { return pick(next) + pick(this); }
}
class G212 {
  private @Nullable G212 next;
  private String tag;
  G212(String t) { this.tag = t; }
  private String pick(G212 o) {
    if (o == null) return this.tag;
    return o.tag;
  }
  String run() { return pick(next) + pick(this); }
}
class G213 {
  private @Nullable G213 next;
  private String tag;
  G213(String t) { this.tag = t; }
  private String pick(G213 o) {
    if (o == null) return this.tag;
    return o.tag;
  }
  String run() { return pick(next) + pick(this); }
}
class G214 {
  private @Nullable G214 next;
  private String tag;
  G214(String t) { this.tag = t; }
  private String pick(G214 o) {
    if (o == null) return this.tag;
    return o.tag;
  }
  String run() { return pick(next) + pick(this); }
}
class G215 {
  private @Nullable G215 next;
  private String tag;
  G215(String t) { this.tag = t; }
  private String pick(G215 o) {
    if (o == null) return this.tag;
    return o.tag;
  }
  String run() { return pick(next) + pick(this); }
}
class G216 {
  private @Nullable G216 next;
  private String tag;
  G216(String t) { this.tag = t; }
  private String pick(G216 o) {
    if (o == null) return this.tag;
    return o.tag;
  }
  String run() { return pick(next) + pick(this); }
}
class G217 {
  private @Nullable G217 next;
  private String tag;
  G217(String t) { this.tag = t; }
  private String pick(G217 o) {
    if (o == null) return this.tag;
    return o.tag;
  }
  String run() { return pick(next) + pick(this); }
}
class G218 {
  private @Nullable G218 next;
  private String tag;
  G218(String t) { this.tag = t; }
  private String pick(G218 o) {
    if (o == null) return this.tag;
    return o.tag;
  }
  String run() { return pick(next) + pick(this); }
}
class G219 {
  private @Nullable G219 next;
  private String tag;
  G219(String t) { this.tag = t; }
  private String pick(G219 o) {
    if (o == null) return this.tag;
    return o.tag;
  }
  String run() { return pick(next) + pick(this); }
}
class G220 {
  private @Nullable G220 next;
  private String tag;
  G220(String t) { this.tag = t; }
  private String pick(G220 o) {
    if (o == null) return this.tag;
    return o.tag;
  }
  String run() { return pick(next) + pick(this); }
}
class G221 {
  private @Nullable G221 next;
  private String tag;
  G221(String t) { this.tag = t; }
  private String pick(G221 o) {
    if (o == null) return this.tag;
    return o.tag;
  }
  String run() { return pick(next) + pick(this); }
}
class G222 {
  private @Nullable G222 next;
  private String tag;
  G222(String t) { this.tag = t; }
  private String pick(G222 o) {
    if (o == null) return this.tag;
    return o.tag;
  }
  String run() { return pick(next) + pick(this); }
}
class G223 {
  private @Nullable G223 next;
  private String tag;
  G223(String t) { this.tag = t; }
  private String pick(G223 o) {
    if (o == null) return this.tag;
    return o.tag;
  }
  String run() { return pick(next) + pick(this); }
}
class G224 {
  private @Nullable G224 next;
  private String tag;
  G224(String t) { this.tag = t; }
  private String pick(G224 o) {
    if (o == null) return this.tag;
    return o.tag;
  }
  String run() { return pick(next) + pick(this); }
}
class G225 {
  private @Nullable G225 next;
  private String tag;
  G225(String t) { this.tag = t; }
  private String pick(G225 o) {
    if (o == null) return this.tag;
    return o.tag;
  }
  String run() { return pick(next) + pick(this); }
}
class G226 {
  private @Nullable G226 next;
  private String tag;
  G226(String t) { this.tag = t; }
  private String pick(G226 o) {
    if (o == null) return this.tag;
    return o.tag;
  }
  String run() { return pick(next) + pick(this); }
}
class G227 {
  private @Nullable G227 next;
  private String tag;
  G227(String t) { this.tag = t; }
  private String pick(G227 o) {
    if (o == null) return this.tag;
    return o.tag;
  }
  String run() { return pick(next) + pick(this); }
}
class G228 {
  private @Nullable G228 next;
  private String tag;
  G228(String t) { this.tag = t; }
  private String pick(G228 o) {
    if (o == null) return this.tag;
    return o.tag;
  }
  String run() { return pick(next) + pick(this); }
}
class G229 {
  private @Nullable G229 next;
  private String tag;
  G229(String t) { this.tag = t; }
  private String pick(G229 o) {
    if (o == null) return this.tag;
    return o.tag;
  }
  String run() { return pick(next) + pick(this); }
}
class G230 {
  private @Nullable G230 next;
  private String tag;
  G230(String t) { this.tag = t; }
  private String pick(G230 o) {
    if (o == null) return this.tag;
    return o.tag;
  }
  String run() { return pick(next) + pick(this); }
}
class G231 {
  private @Nullable G231 next;
  private String tag;
  G231(String t) { this.tag = t; }
  private String pick(G231 o) {
    if (o == null) return this.tag;
    return o.tag;
  }
  String run() { return pick(next) + pick(this); }
}
class G232 {
  private @Nullable G232 next;
  private String tag;
  G232(String t) { this.tag = t; }
  private String pick(G232 o) {
    if (o == null) return this.tag;
    return o.tag;
  }
  String run() { return pick(next) + pick(this); }
}
class G233 {
  private @Nullable G233 next;
  private String tag;
  G233(String t) { this.tag = t; }
  private String pick(G233 o) {
    if (o == null) return this.tag;
    return o.tag;
  }
  String run() { return pick(next) + pick(this); }
}
class G234 {
  private @Nullable G234 next;
  private String tag;
  G234(String t) { this.tag = t; }
  private String pick(G234 o) {
    if (o == null) return this.tag;
    return o.tag;
  }
  String run() { return pick(next) + pick(this); }
}
class G235 {
  private @Nullable G235 next;
  private String tag;
  G235(String t) { this.tag = t; }
  private String pick(G235 o) {
    if (o == null) return this.tag;
    return o.tag;
  }
  String run() { return pick(next) + pick(this); }
}
class G236 {
  private @Nullable G236 next;
  private String tag;
  G236(String t) { this.tag = t; }
  private String pick(G236 o) {
    if (o == null) return this.tag;
    return o.tag;
  }
  String run() { return pick(next) + pick(this); }
}
class G237 {
  private @Nullable G237 next;
  private String tag;
  G237(String t) { this.tag = t; }
  private String pick(G237 o) {
    if (o == null) return this.tag;
    return o.tag;
  }
  String run() { return pick(next) + pick(this); }
}
class G238 {
  private @Nullable G238 next;
  private String tag;
  G238(String t) { this.tag = t; }
  private String pick(G238 o) {
    if (o == null) return this.tag;
    return o.tag;
  }
  String run() { return pick(next) + pick(this); }
}
class G239 {
  private @Nullable G239 next;
  private String tag;
  G239(String t) { this.tag = t; }
  private String pick(G239 o) {
    if (o == null) return this.tag;
    return o.tag;
  }
  String run() { return pick(next) + pick(this); }
}
class G240 {
  private @Nullable G240 next;
  private String tag;
  G240(String t) { this.tag = t; }
  private String pick(G240 o) {
    if (o == null) return this.tag;
    return o.tag;
  }
  String run() { return pick(next) + pick(this); }
}
class G241 {
  private @Nullable G241 next;
  private String tag;
  G241(String t) { this.tag = t; }
  private String pick(G241 o) {
    if (o == null) return this.tag;
    return o.tag;
  }
  String run() { return pick(next) + pick(this); }
}
class G242 {
  private @Nullable G242 next;
  private String tag;
  G242(String t) { this.tag = t; }
  private String pick(G242 o) {
    if (o == null) return this.tag;
    return o.tag;
  }
  String run() { return pick(next) + pick(this); }
}
class G243 {
  private @Nullable G243 next;
  private String tag;
  G243(String t) { this.tag = t; }
  private String pick(G243 o) {
    if (o == null) return this.tag;
    return o.tag;
  }
  String run() { return pick(next) + pick(this); }
}
class G244 {
  private @Nullable G244 next;
  private String tag;
  G244(String t) { this.tag = t; }
  private String pick(G244 o) {
    if (o == null) return this.tag;
    return o.tag;
  }
  String run() { return pick(next) + pick(this); }
}
class G245 {
  private @Nullable G245 next;
  private String tag;
  G245(String t) { this.tag = t; }
  private String pick(G245 o) {
    if (o == null) return this.tag;
    return o.tag;
  }
  String run() { return pick(next) + pick(this); }
}
class G246 {
  private @Nullable G246 next;
  private String tag;
  G246(String t) { this.tag = t; }
  private String pick(G246 o) {
    if (o == null) return this.tag;
    return o.tag;
  }
  String run() { return pick(next) + pick(this); }
}
class G247 {
  private @Nullable G247 next;
  private String tag;
  G247(String t) { this.tag = t; }
  private String pick(G247 o) {
    if (o == null) return this.tag;
    return o.tag;
  }
  String run() { return pick(next) + pick(this); }
}
class G248 {
  private @Nullable G248 next;
  private String tag;
  G248(String t) { this.tag = t; }
  private String pick(G248 o) {
    if (o == null) return this.tag;
    return o.tag;
  }
  String run() { return pick(next) + pick(this); }
}
class G249 {
  private @Nullable G249 next;
  private String tag;
  G249(String t) { this.tag = t; }
  private String pick(G249 o) {
    if (o == null) return this.tag;
    return o.tag;
  }
  String run() { return pick(next) + pick(this); }
}
class G250 {
  private @Nullable G250 next;
  private String tag;
  G250(String t) { this.tag = t; }
  private String pick(G250 o) {
    if (o == null) return this.tag;
    return o.tag;
  }
  String run() { return pick(next) + pick(this); }
}
class G251 {
  private @Nullable G251 next;
  private String tag;
  G251(String t) { this.tag = t; }
  private String pick(G251 o) {
    if (o == null) return this.tag;
    return o.tag;
  }
  String run() { return pick(next) + pick(this); }
}
class G252 {
  private @Nullable G252 next;
  private String tag;
  G252(String t) { this.tag = t; }
  private String pick(G252 o) {
    if (o == null) return this.tag;
    return o.tag;
  }
  String run() { return pick(next) + pick(this); }
}
class G253 {
  private @Nullable G253 next;
  private String tag;
  G253(String t) { this.tag = t; }
  private String pick(G253 o) {
    if (o == null) return this.tag;
    return o.tag;
  }
  String run() { return pick(next) + pick(this); }
}
class G254 {
  private @Nullable G254 next;
  private String tag;
  G254(String t) { this.tag = t; }
  private String pick(G254 o) {
    if (o == null) return this.tag;
    return o.tag;
  }
  String run() { return pick(next) + pick(this); }
}
class G255 {
  private @Nullable G255 next;
  private String tag;
  G255(String t) { this.tag = t; }
  private String pick(G255 o) {
    if (o == null) return this.tag;
    return o.tag;
  }
  String run() { return pick(next) + pick(this); }
}
class G256 {
  private @Nullable G256 next;
  private String tag;
  G256(String t) { this.tag = t; }
  private String pick(G256 o) {
    if (o == null) return this.tag;
    return o.tag;
  }
  String run() { return pick(next) + pick(this); }
}
class G257 {
  private @Nullable G257 next;
  private String tag;
  G257(String t) { this.tag = t; }
  private String pick(G257 o) {
    if (o == null) return this.tag;
    return o.tag;
  }
  String run() { return pick(next) + pick(this); }
}
class G258 {
  private @Nullable G258 next;
  private String tag;
  G258(String t) { this.tag = t; }
  private String pick(G258 o) {
    if (o == null) return this.tag;
    return o.tag;
  }
  String run() { return pick(next) + pick(this); }
}
class G259 {
  private @Nullable G259 next;
  private String tag;
  G259(String t) { this.tag = t; }
  private String pick(G259 o) {
    if (o == null) return this.tag;
    return o.tag;
  }
  String run() { return pick(next) + pick(this); }
}
class G260 {
  private @Nullable G260 next;
  private String tag;
  G260(String t) { this.tag = t; }
  private String pick(G260 o) {
    if (o == null) return this.tag;
    return o.tag;
  }
  String run() { return pick(next) + pick(this); }
}
class G261 {
  private @Nullable G261 next;
  private String tag;
  G261(String t) { this.tag = t; }
  private String pick(G261 o) {
    if (o == null) return this.tag;
    return o.tag;
  }
  String run() { return pick(next) + pick(this); }
}
class G262 {
  private @Nullable G262 next;
  private String tag;
  G262(String t) { this.tag = t; }
  private String pick(G262 o) {
    if (o == null) return this.tag;
    return o.tag;
  }
  String run() { return pick(next) + pick(this); }
}
class G263 {
  private @Nullable G263 next;
  private String tag;
  G263(String t) { this.tag = t; }
  private String pick(G263 o) {
    if (o == null) return this.tag;
    return o.tag;
  }
  String run() { return pick(next) + pick(this); }
}
class G264 {
  private @Nullable G264 next;
  private String tag;
  G264(String t) { this.tag = t; }
  private String pick(G264 o) {
    if (o == null) return this.tag;
    return o.tag;
  }
  String run() { return pick(next) + pick(this); }
}
class G265 {
  private @Nullable G265 next;
  private String tag;
  G265(String t) { this.tag = t; }
  private String pick(G265 o) {
    if (o == null) return this.tag;
    return o.tag;
  }
  String run() { return pick(next) + pick(this); }
}
class G266 {
  private @Nullable G266 next;
  private String tag;
  G266(String t) { this.tag = t; }
  private String pick(G266 o) {
    if (o == null) return this.tag;
    return o.tag;
  }
  String run() { return pick(next) + pick(this); }
}
class G267 {
  private @Nullable G267 next;
  private String tag;
  G267(String t) { this.tag = t; }
  private String pick(G267 o) {
    if (o == null) return this.tag;
    return o.tag;
  }
  String run() { return pick(next) + pick(this); }
}
class G268 {
  private @Nullable G268 next;
  private String tag;
  G268(String t) { this.tag = t; }
  private String pick(G268 o) {
    if (o == null) return this.tag;
    return o.tag;
  }
  String run() { return pick(next) + pick(this); }
}
class G269 {
  private @Nullable G269 next;
  private String tag;
  G269(String t) { this.tag = t; }
  private String pick(G269 o) {
    if (o == null) return this.tag;
    return o.tag;
  }
  String run() { return pick(next) + pick(this); }
}
class G270 {
  private @Nullable G270 next;
  private String tag;
  G270(String t) { this.tag = t; }
  private String pick(G270 o) {
    if (o == null) return this.tag;
    return o.tag;
  }
  String run() { return pick(next) + pick(this); }
}
class G271 {
  private @Nullable G271 next;
  private String tag;
  G271(String t) { this.tag = t; }
  private String pick(G271 o) {
    if (o == null) return this.tag;
    return o.tag;
  }
  String run() { return pick(next) + pick(this); }
}
class G272 {
  private @Nullable G272 next;
  private String tag;
  G272(String t) { this.tag = t; }
  private String pick(G272 o) {
    if (o == null) return this.tag;
    return o.tag;
  }
  String run() { return pick(next) + pick(this); }
}
class G273 {
  private @Nullable G273 next;
  private String tag;
  G273(String t) { this.tag = t; }
  private String pick(G273 o) {
    if (o == null) return this.tag;
    return o.tag;
  }
  String run() { return pick(next) + pick(this); }
}
class G274 {
  private @Nullable G274 next;
  private String tag;
  G274(String t) { this.tag = t; }
  private String pick(G274 o) {
    if (o == null) return this.tag;
    return o.tag;
  }
  String run() { return pick(next) + pick(this); }
}
class G275 {
  private @Nullable G275 next;
  private String tag;
  G275(String t) { this.tag = t; }
  private String pick(G275 o) {
    if (o == null) return this.tag;
    return o.tag;
  }
  String run() { return pick(next) + pick(this); }
}
class G276 {
  private @Nullable G276 next;
  private String tag;
  G276(String t) { this.tag = t; }
  private String pick(G276 o) {
    if (o == null) return this.tag;
    return o.tag;
  }
  String run() { return pick(next) + pick(this); }
}
class G277 {
  private @Nullable G277 next;
  private String tag;
  G277(String t) { this.tag = t; }
  private String pick(G277 o) {
    if (o == null) return this.tag;
    return o.tag;
  }
  String run() { return pick(next) + pick(this); }
}
class G278 {
  private @Nullable G278 next;
  private String tag;
  G278(String t) { this.tag = t; }
  private String pick(G278 o) {
    if (o == null) return this.tag;
    return o.tag;
  }
  String run() { return pick(next) + pick(this); }
}
class G279 {
  private @Nullable G279 next;
  private String tag;
  G279(String t) { this.tag = t; }
  private String pick(G279 o) {
    if (o == null) return this.tag;
    return o.tag;
  }
  String run() { return pick(next) + pick(this); }
}
class G280 {
  private @Nullable G280 next;
  private String tag;
  G280(String t) { this.tag = t; }
  private String pick(G280 o) {
    if (o == null) return this.tag;
    return o.tag;
  }
  String run() { return pick(next) + pick(this); }
}
class G281 {
  private @Nullable G281 next;
  private String tag;
  G281(String t) { this.tag = t; }
  private String pick(G281 o) {
    if (o == null) return this.tag;
    return o.tag;
  }
  String run() { return pick(next) + pick(this); }
}
class G282 {
  private @Nullable G282 next;
  private String tag;
  G282(String t) { this.tag = t; }
  private String pick(G282 o) {
    if (o == null) return this.tag;
    return o.tag;
  }
  String run() { return pick(next) + pick(this); }
}
class G283 {
  private @Nullable G283 next;
  private String tag;
  G283(String t) { this.tag = t; }
  private String pick(G283 o) {
    if (o == null) return this.tag;
    return o.tag;
  }
  String run() { return pick(next) + pick(this); }
}
class G284 {
  private @Nullable G284 next;
  private String tag;
  G284(String t) { this.tag = t; }
  private String pick(G284 o) {
    if (o == null) return this.tag;
    return o.tag;
  }
  String run() { return pick(next) + pick(this); }
}
class G285 {
  private @Nullable G285 next;
  private String tag;
  G285(String t) { this.tag = t; }
  private String pick(G285 o) {
    if (o == null) return this.tag;
    return o.tag;
  }
  String run() { return pick(next) + pick(this); }
}
class G286 {
  private @Nullable G286 next;
  private String tag;
  G286(String t) { this.tag = t; }
  private String pick(G286 o) {
    if (o == null) return this.tag;
    return o.tag;
  }
  String run() { return pick(next) + pick(this); }
}
class G287 {
  private @Nullable G287 next;
  private String tag;
  G287(String t) { this.tag = t; }
  private String pick(G287 o) {
    if (o == null) return this.tag;
    return o.tag;
  }
  String run() { return pick(next) + pick(this); }
}
class G288 {
  private @Nullable G288 next;
  private String tag;
  G288(String t) { this.tag = t; }
  private String pick(G288 o) {
    if (o == null) return this.tag;
    return o.tag;
  }
  String run() { return pick(next) + pick(this); }
}
class G289 {
  private @Nullable G289 next;
  private String tag;
  G289(String t) { this.tag = t; }
  private String pick(G289 o) {
    if (o == null) return this.tag;
    return o.tag;
  }
  String run() { return pick(next) + pick(this); }
}
class G290 {
  private @Nullable G290 next;
  private String tag;
  G290(String t) { this.tag = t; }
  private String pick(G290 o) {
    if (o == null) return this.tag;
    return o.tag;
  }
  String run() { return pick(next) + pick(this); }
}
class G291 {
  private @Nullable G291 next;
  private String tag;
  G291(String t) { this.tag = t; }
  private String pick(G291 o) {
    if (o == null) return this.tag;
    return o.tag;
  }
  String run() { return pick(next) + pick(this); }
}
class G292 {
  private @Nullable G292 next;
  private String tag;
  G292(String t) { this.tag = t; }
  private String pick(G292 o) {
    if (o == null) return this.tag;
    return o.tag;
  }
  String run() { return pick(next) + pick(this); }
}
class G293 {
  private @Nullable G293 next;
  private String tag;
  G293(String t) { this.tag = t; }
  private String pick(G293 o) {
    if (o == null) return this.tag;
    return o.tag;
  }
  String run() { return pick(next) + pick(this); }
}
class G294 {
  private @Nullable G294 next;
  private String tag;
  G294(String t) { this.tag = t; }
  private String pick(G294 o) {
    if (o == null) return this.tag;
    return o.tag;
  }
  String run() { return pick(next) + pick(this); }
}
class G295 {
  private @Nullable G295 next;
  private String tag;
  G295(String t) { this.tag = t; }
  private String pick(G295 o) {
    if (o == null) return this.tag;
    return o.tag;
  }
  String run() { return pick(next) + pick(this); }
}
class G296 {
  private @Nullable G296 next;
  private String tag;
  G296(String t) { this.tag = t; }
  private String pick(G296 o) {
    if (o == null) return this.tag;
    return o.tag;
  }
  String run() { return pick(next) + pick(this); }
}
class G297 {
  private @Nullable G297 next;
  private String tag;
  G297(String t) { this.tag = t; }
  private String pick(G297 o) {
    if (o == null) return this.tag;
    return o.tag;
  }
  String run() { return pick(next) + pick(this); }
}
class G298 {
  private @Nullable G298 next;
  private String tag;
  G298(String t) { this.tag = t; }
  private String pick(G298 o) {
    if (o == null) return this.tag;
    return o.tag;
  }
  String run() { return pick(next) + pick(this); }
}
class G299 {
  private @Nullable G299 next;
  private String tag;
  G299(String t) { this.tag = t; }
  private String pick(G299 o) {
    if (o == null) return this.tag;
    return o.tag;
  }
  String run() { return pick(next) + pick(this); }
}
class G300 {
  private @Nullable G300 next;
  private String tag;
  G300(String t) { this.tag = t; }
  private String pick(G300 o) {
    if (o == null) return this.tag;
    return o.tag;
  }
  String run() { return pick(next) + pick(this); }
}
class G301 {
  private @Nullable G301 next;
  private String tag;
  G301(String t) { this.tag = t; }
  private String pick(G301 o) {
    if (o == null) return this.tag;
    return o.tag;
  }
  String run() { return pick(next) + pick(this); }
}
class G302 {
  private @Nullable G302 next;
  private String tag;
  G302(String t) { this.tag = t; }
  private String pick(G302 o) {
    if (o == null) return this.tag;
    return o.tag;
  }
  String run() { return pick(next) + pick(this); }
}
class G303 {
  private @Nullable G303 next;
  private String tag;
  G303(String t) { this.tag = t; }
  private String pick(G303 o) {
    if (o == null) return this.tag;
    return o.tag;
  }
  String run() { return pick(next) + pick(this); }
}
class G304 {
  private @Nullable G304 next;
  private String tag;
  G304(String t) { this.tag = t; }
  private String pick(G304 o) {
    if (o == null) return this.tag;
    return o.tag;
  }
  String run() { return pick(next) + pick(this); }
}
class G305 {
  private @Nullable G305 next;
  private String tag;
  G305(String t) { this.tag = t; }
  private String pick(G305 o) {
    if (o == null) return this.tag;
    return o.tag;
  }
  String run() { return pick(next) + pick(this); }
}
class G306 {
  private @Nullable G306 next;
  private String tag;
  G306(String t) { this.tag = t; }
  private String pick(G306 o) {
    if (o == null) return this.tag;
    return o.tag;
  }
  String run() { return pick(next) + pick(this); }
}
class G307 {
  private @Nullable G307 next;
  private String tag;
  G307(String t) { this.tag = t; }
  private String pick(G307 o) {
    if (o == null) return this.tag;
    return o.tag;
  }
  String run() { return pick(next) + pick(this); }
}
class G308 {
  private @Nullable G308 next;
  private String tag;
  G308(String t) { this.tag = t; }
  private String pick(G308 o) {
    if (o == null) return this.tag;
    return o.tag;
  }
  String run() { return pick(next) + pick(this); }
}
class G309 {
  private @Nullable G309 next;
  private String tag;
  G309(String t) { this.tag = t; }
  private String pick(G309 o) {
    if (o == null) return this.tag;
    return o.tag;
  }
  String run() { return pick(next) + pick(this); }
}
class G310 {
  private @Nullable G310 next;
  private String tag;
  G310(String t) { this.tag = t; }
  private String pick(G310 o) {
    if (o == null) return this.tag;
    return o.tag;
  }
  String run() { return pick(next) + pick(this); }
}
class G311 {
  private @Nullable G311 next;
  private String tag;
  G311(String t) { this.tag = t; }
  private String pick(G311 o) {
    if (o == null) return this.tag;
    return o.tag;
  }
  String run() { return pick(next) + pick(this); }
}
class G312 {
  private @Nullable G312 next;
  private String tag;
  G312(String t) { this.tag = t; }
  private String pick(G312 o) {
    if (o == null) return this.tag;
    return o.tag;
  }
  String run() { return pick(next) + pick(this); }
}
class G313 {
  private @Nullable G313 next;
  private String tag;
  G313(String t) { this.tag = t; }
  private String pick(G313 o) {
    if (o == null) return this.tag;
    return o.tag;
  }
  String run() { return pick(next) + pick(this); }
}
class G314 {
  private @Nullable G314 next;
  private String tag;
  G314(String t) { this.tag = t; }
  private String pick(G314 o) {
    if (o == null) return this.tag;
    return o.tag;
  }
  String run() { return pick(next) + pick(this); }
}
class G315 {
  private @Nullable G315 next;
  private String tag;
  G315(String t) { this.tag = t; }
  private String pick(G315 o) {
    if (o == null) return this.tag;
    return o.tag;
  }
  String run() { return pick(next) + pick(this); }
}
class G316 {
  private @Nullable G316 next;
  private String tag;
  G316(String t) { this.tag = t; }
  private String pick(G316 o) {
    if (o == null) return this.tag;
    return o.tag;
  }
  String run() { return pick(next) + pick(this); }
}
class G317 {
  private @Nullable G317 next;
  private String tag;
  G317(String t) { this.tag = t; }
  private String pick(G317 o) {
    if (o == null) return this.tag;
    return o.tag;
  }
  String run() { return pick(next) + pick(this); }
}
class G318 {
  private @Nullable G318 next;
  private String tag;
  G318(String t) { this.tag = t; }
  private String pick(G318 o) {
    if (o == null) return this.tag;
    return o.tag;
  }
  String run() { return pick(next) + pick(this); }
}
class G319 {
  private @Nullable G319 next;
  private String tag;
  G319(String t) { this.tag = t; }
  private String pick(G319 o) {
    if (o == null) return this.tag;
    return o.tag;
  }
  String run() { return pick(next) + pick(this); }
}
class G320 {
  private @Nullable G320 next;
  private String tag;
  G320(String t) { this.tag = t; }
  private String pick(G320 o) {
    if (o == null) return this.tag;
    return o.tag;
  }
  String run() { return pick(next) + pick(this); }
}
class G321 {
  private @Nullable G321 next;
  private String tag;
  G321(String t) { this.tag = t; }
  private String pick(G321 o) {
    if (o == null) return this.tag;
    return o.tag;
  }
  String run() { return pick(next) + pick(this); }
}
class G322 {
  private @Nullable G322 next;
  private String tag;
  G322(String t) { this.tag = t; }
  private String pick(G322 o) {
    if (o == null) return this.tag;
    return o.tag;
  }
  String run() { return pick(next) + pick(this); }
}
class G323 {
  private @Nullable G323 next;
  private String tag;
  G323(String t) { this.tag = t; }
  private String pick(G323 o) {
    if (o == null) return this.tag;
    return o.tag;
  }
  String run() { return pick(next) + pick(this); }
}
class G324 {
  private @Nullable G324 next;
  private String tag;
  G324(String t) { this.tag = t; }
  private String pick(G324 o) {
    if (o == null) return this.tag;
    return o.tag;
  }
  String run() { return pick(next) + pick(this); }
}
class G325 {
  private @Nullable G325 next;
  private String tag;
  G325(String t) { this.tag = t; }
  private String pick(G325 o) {
    if (o == null) return this.tag;
    return o.tag;
  }
  String run() { return pick(next) + pick(this); }
}
class G326 {
  private @Nullable G326 next;
  private String tag;
  G326(String t) { this.tag = t; }
  private String pick(G326 o) {
    if (o == null) return this.tag;
    return o.tag;
  }
  String run() { return pick(next) + pick(this); }
}
class G327 {
  private @Nullable G327 next;
  private String tag;
  G327(String t) { this.tag = t; }
  private String pick(G327 o) {
    if (o == null) return this.tag;
    return o.tag;
  }
  String run() { return pick(next) + pick(this); }
}
class G328 {
  private @Nullable G328 next;
  private String tag;
  G328(String t) { this.tag = t; }
  private String pick(G328 o) {
    if (o == null) return this.tag;
    return o.tag;
  }
  String run() { return pick(next) + pick(this); }
}
class G329 {
  private @Nullable G329 next;
  private String tag;
  G329(String t) { this.tag = t; }
  private String pick(G329 o) {
    if (o == null) return this.tag;
    return o.tag;
  }
  String run() { return pick(next) + pick(this); }
}
class G330 {
  private @Nullable G330 next;
  private String tag;
  G330(String t) { this.tag = t; }
  private String pick(G330 o) {
    if (o == null) return this.tag;
    return o.tag;
  }
  String run() { return pick(next) + pick(this); }
}
class G331 {
  private @Nullable G331 next;
  private String tag;
  G331(String t) { this.tag = t; }
  private String pick(G331 o) {
    if (o == null) return this.tag;
    return o.tag;
  }
  String run() { return pick(next) + pick(this); }
}
class G332 {
  private @Nullable G332 next;
  private String tag;
  G332(String t) { this.tag = t; }
  private String pick(G332 o) {
    if (o == null) return this.tag;
    return o.tag;
  }
  String run() { return pick(next) + pick(this); }
}
class G333 {
  private @Nullable G333 next;
  private String tag;
  G333(String t) { this.tag = t; }
  private String pick(G333 o) {
    if (o == null) return this.tag;
    return o.tag;
  }
  String run() { return pick(next) + pick(this); }
}
class G334 {
  private @Nullable G334 next;
  private String tag;
  G334(String t) { this.tag = t; }
  private String pick(G334 o) {
    if (o == null) return this.tag;
    return o.tag;
  }
  String run() { return pick(next) + pick(this); }
}
class G335 {
  private @Nullable G335 next;
  private String tag;
  G335(String t) { this.tag = t; }
  private String pick(G335 o) {
    if (o == null) return this.tag;
    return o.tag;
  }
  String run() { return pick(next) + pick(this); }
}
class G336 {
  private @Nullable G336 next;
  private String tag;
  G336(String t) { this.tag = t; }
  private String pick(G336 o) {
    if (o == null) return this.tag;
    return o.tag;
  }
  String run() { return pick(next) + pick(this); }
}
class G337 {
  private @Nullable G337 next;
  private String tag;
  G337(String t) { this.tag = t; }
  private String pick(G337 o) {
    if (o == null) return this.tag;
    return o.tag;
  }
  String run() { return pick(next) + pick(this); }
}
class G338 {
  private @Nullable G338 next;
  private String tag;
  G338(String t) { this.tag = t; }
  private String pick(G338 o) {
    if (o == null) return this.tag;
    return o.tag;
  }
  String run() { return pick(next) + pick(this); }
}
class G339 {
  private @Nullable G339 next;
  private String tag;
  G339(String t) { this.tag = t; }
  private String pick(G339 o) {
    if (o == null) return this.tag;
    return o.tag;
  }
  String run() { return pick(next) + pick(this); }
}
class G340 {
  private @Nullable G340 next;
  private String tag;
  G340(String t) { this.tag = t; }
  private String pick(G340 o) {
    if (o == null) return this.tag;
    return o.tag;
  }
  String run() { return pick(next) + pick(this); }
}
class G341 {
  private @Nullable G341 next;
  private String tag;
  G341(String t) { this.tag = t; }
  private String pick(G341 o) {
    if (o == null) return this.tag;
    return o.tag;
  }
  String run() { return pick(next) + pick(this); }
}
class G342 {
  private @Nullable G342 next;
  private String tag;
  G342(String t) { this.tag = t; }
  private String pick(G342 o) {
    if (o == null) return this.tag;
    return o.tag;
  }
  String run() { return pick(next) + pick(this); }
}
class G343 {
  private @Nullable G343 next;
  private String tag;
  G343(String t) { this.tag = t; }
  private String pick(G343 o) {
    if (o == null) return this.tag;
    return o.tag;
  }
  String run() { return pick(next) + pick(this); }
}
class G344 {
  private @Nullable G344 next;
  private String tag;
  G344(String t) { this.tag = t; }
  private String pick(G344 o) {
    if (o == null) return this.tag;
    return o.tag;
  }
  String run() { return pick(next) + pick(this); }
}
class G345 {
  private @Nullable G345 next;
  private String tag;
  G345(String t) { this.tag = t; }
  private String pick(G345 o) {
    if (o == null) return this.tag;
    return o.tag;
  }
  String run() { return pick(next) + pick(this); }
}
class G346 {
  private @Nullable G346 next;
  private String tag;
  G346(String t) { this.tag = t; }
  private String pick(G346 o) {
    if (o == null) return this.tag;
    return o.tag;
  }
  String run() { return pick(next) + pick(this); }
}
class G347 {
  private @Nullable G347 next;
  private String tag;
  G347(String t) { this.tag = t; }
  private String pick(G347 o) {
    if (o == null) return this.tag;
    return o.tag;
  }
  String run() { return pick(next) + pick(this); }
}
class G348 {
  private @Nullable G348 next;
  private String tag;
  G348(String t) { this.tag = t; }
  private String pick(G348 o) {
    if (o == null) return this.tag;
    return o.tag;
  }
  String run() { return pick(next) + pick(this); }
}
class G349 {
  private @Nullable G349 next;
  private String tag;
  G349(String t) { this.tag = t; }
  private String pick(G349 o) {
    if (o == null) return this.tag;
    return o.tag;
  }
  String run() { return pick(next) + pick(this); }
}
class G350 {
  private @Nullable G350 next;
  private String tag;
  G350(String t) { this.tag = t; }
  private String pick(G350 o) {
    if (o == null) return this.tag;
    return o.tag;
  }
  String run() { return pick(next) + pick(this); }
}
class G351 {
  private @Nullable G351 next;
  private String tag;
  G351(String t) { this.tag = t; }
  private String pick(G351 o) {
    if (o == null) return this.tag;
    return o.tag;
  }
  String run() { return pick(next) + pick(this); }
}
class G352 {
  private @Nullable G352 next;
  private String tag;
  G352(String t) { this.tag = t; }
  private String pick(G352 o) {
    if (o == null) return this.tag;
    return o.tag;
  }
  String run() { return pick(next) + pick(this); }
}
class G353 {
  private @Nullable G353 next;
  private String tag;
  G353(String t) { this.tag = t; }
  private String pick(G353 o) {
    if (o == null) return this.tag;
    return o.tag;
  }
  String run() { return pick(next) + pick(this); }
}
class G354 {
  private @Nullable G354 next;
  private String tag;
  G354(String t) { this.tag = t; }
  private String pick(G354 o) {
    if (o == null) return this.tag;
    return o.tag;
  }
  String run() { return pick(next) + pick(this); }
}
class G355 {
  private @Nullable G355 next;
  private String tag;
  G355(String t) { this.tag = t; }
  private String pick(G355 o) {
    if (o == null) return this.tag;
    return o.tag;
  }
  String run() { return pick(next) + pick(this); }
}
class G356 {
  private @Nullable G356 next;
  private String tag;
  G356(String t) { this.tag = t; }
  private String pick(G356 o) {
    if (o == null) return this.tag;
    return o.tag;
  }
  String run() { return pick(next) + pick(this); }
}
class G357 {
  private @Nullable G357 next;
  private String tag;
  G357(String t) { this.tag = t; }
  private String pick(G357 o) {
    if (o == null) return this.tag;
    return o.tag;
  }
  String run() { return pick(next) + pick(this); }
}
class G358 {
  private @Nullable G358 next;
  private String tag;
  G358(String t) { this.tag = t; }
  private String pick(G358 o) {
    if (o == null) return this.tag;
    return o.tag;
  }
  String run() { return pick(next) + pick(this); }
}
class G359 {
  private @Nullable G359 next;
  private String tag;
  G359(String t) { this.tag = t; }
  private String pick(G359 o) {
    if (o == null) return this.tag;
    return o.tag;
  }
  String run() { return pick(next) + pick(this); }
}
class G360 {
  private @Nullable G360 next;
  private String tag;
  G360(String t) { this.tag = t; }
  private String pick(G360 o) {
    if (o == null) return this.tag;
    return o.tag;
  }
  String run() { return pick(next) + pick(this); }
}
class G361 {
  private @Nullable G361 next;
  private String tag;
  G361(String t) { this.tag = t; }
  private String pick(G361 o) {
    if (o == null) return this.tag;
    return o.tag;
  }
  String run() { return pick(next) + pick(this); }
}
class G362 {
  private @Nullable G362 next;
  private String tag;
  G362(String t) { this.tag = t; }
  private String pick(G362 o) {
    if (o == null) return this.tag;
    return o.tag;
  }
  String run() { return pick(next) + pick(this); }
}
class G363 {
  private @Nullable G363 next;
  private String tag;
  G363(String t) { this.tag = t; }
  private String pick(G363 o) {
    if (o == null) return this.tag;
    return o.tag;
  }
  String run() { return pick(next) + pick(this); }
}
class G364 {
  private @Nullable G364 next;
  private String tag;
  G364(String t) { this.tag = t; }
  private String pick(G364 o) {
    if (o == null) return this.tag;
    return o.tag;
  }
  String run() { return pick(next) + pick(this); }
}
class G365 {
  private @Nullable G365 next;
  private String tag;
  G365(String t) { this.tag = t; }
  private String pick(G365 o) {
    if (o == null) return this.tag;
    return o.tag;
  }
  String run() { return pick(next) + pick(this); }
}
class G366 {
  private @Nullable G366 next;
  private String tag;
  G366(String t) { this.tag = t; }
  private String pick(G366 o) {
    if (o == null) return this.tag;
    return o.tag;
  }
  String run() { return pick(next) + pick(this); }
}
class G367 {
  private @Nullable G367 next;
  private String tag;
  G367(String t) { this.tag = t; }
  private String pick(G367 o) {
    if (o == null) return this.tag;
    return o.tag;
  }
  String run() { return pick(next) + pick(this); }
}
class G368 {
  private @Nullable G368 next;
  private String tag;
  G368(String t) { this.tag = t; }
  private String pick(G368 o) {
    if (o == null) return this.tag;
    return o.tag;
  }
  String run() { return pick(next) + pick(this); }
}
class G369 {
  private @Nullable G369 next;
  private String tag;
  G369(String t) { this.tag = t; }
  private String pick(G369 o) {
    if (o == null) return this.tag;
    return o.tag;
  }
  String run() { return pick(next) + pick(this); }
}
class G370 {
  private @Nullable G370 next;
  private String tag;
  G370(String t) { this.tag = t; }
  private String pick(G370 o) {
    if (o == null) return this.tag;
    return o.tag;
  }
  String run() { return pick(next) + pick(this); }
}
class G371 {
  private @Nullable G371 next;
  private String tag;
  G371(String t) { this.tag = t; }
  private String pick(G371 o) {
    if (o == null) return this.tag;
    return o.tag;
  }
  String run() { return pick(next) + pick(this); }
}
class G372 {
  private @Nullable G372 next;
  private String tag;
  G372(String t) { this.tag = t; }
  private String pick(G372 o) {
    if (o == null) return this.tag;
    return o.tag;
  }
  String run() { return pick(next) + pick(this); }
}
class G373 {
  private @Nullable G373 next;
  private String tag;
  G373(String t) { this.tag = t; }
  private String pick(G373 o) {
    if (o == null) return this.tag;
    return o.tag;
  }
  String run() { return pick(next) + pick(this); }
}
class G374 {
  private @Nullable G374 next;
  private String tag;
  G374(String t) { this.tag = t; }
  private String pick(G374 o) {
    if (o == null) return this.tag;
    return o.tag;
  }
  String run() { return pick(next) + pick(this); }
}
class G375 {
  private @Nullable G375 next;
  private String tag;
  G375(String t) { this.tag = t; }
  private String pick(G375 o) {
    if (o == null) return this.tag;
    return o.tag;
  }
  String run() { return pick(next) + pick(this); }
}
class G376 {
  private @Nullable G376 next;
  private String tag;
  G376(String t) { this.tag = t; }
  private String pick(G376 o) {
    if (o == null) return this.tag;
    return o.tag;
  }
  String run() { return pick(next) + pick(this); }
}
class G377 {
  private @Nullable G377 next;
  private String tag;
  G377(String t) { this.tag = t; }
  private String pick(G377 o) {
    if (o == null) return this.tag;
    return o.tag;
  }
  String run() { return pick(next) + pick(this); }
}
class G378 {
  private @Nullable G378 next;
  private String tag;
  G378(String t) { this.tag = t; }
  private String pick(G378 o) {
    if (o == null) return this.tag;
    return o.tag;
  }
  String run() { return pick(next) + pick(this); }
}
class G379 {
  private @Nullable G379 next;
  private String tag;
  G379(String t) { this.tag = t; }
  private String pick(G379 o) {
    if (o == null) return this.tag;
    return o.tag;
  }
  String run() { return pick(next) + pick(this); }
}
class G380 {
  private @Nullable G380 next;
  private String tag;
  G380(String t) { this.tag = t; }
  private String pick(G380 o) {
    if (o == null) return this.tag;
    return o.tag;
  }
  String run() { return pick(next) + pick(this); }
}
class G381 {
  private @Nullable G381 next;
  private String tag;
  G381(String t) { this.tag = t; }
  private String pick(G381 o) {
    if (o == null) return this.tag;
    return o.tag;
  }
  String run() { return pick(next) + pick(this); }
}
class G382 {
  private @Nullable G382 next;
  private String tag;
  G382(String t) { this.tag = t; }
  private String pick(G382 o) {
    if (o == null) return this.tag;
    return o.tag;
  }
  String run() { return pick(next) + pick(this); }
}
class G383 {
  private @Nullable G383 next;
  private String tag;
  G383(String t) { this.tag = t; }
  private String pick(G383 o) {
    if (o == null) return this.tag;
    return o.tag;
  }
  String run() { return pick(next) + pick(this); }
}
class G384 {
  private @Nullable G384 next;
  private String tag;
  G384(String t) { this.tag = t; }
  private String pick(G384 o) {
    if (o == null) return this.tag;
    return o.tag;
  }
  String run() { return pick(next) + pick(this); }
}
class G385 {
  private @Nullable G385 next;
  private String tag;
  G385(String t) { this.tag = t; }
  private String pick(G385 o) {
    if (o == null) return this.tag;
    return o.tag;
  }
  String run() { return pick(next) + pick(this); }
}
class G386 {
  private @Nullable G386 next;
  private String tag;
  G386(String t) { this.tag = t; }
  private String pick(G386 o) {
    if (o == null) return this.tag;
    return o.tag;
  }
  String run() { return pick(next) + pick(this); }
}
class G387 {
  private @Nullable G387 next;
  private String tag;
  G387(String t) { this.tag = t; }
  private String pick(G387 o) {
    if (o == null) return this.tag;
    return o.tag;
  }
  String run() { return pick(next) + pick(this); }
}
class G388 {
  private @Nullable G388 next;
  private String tag;
  G388(String t) { this.tag = t; }
  private String pick(G388 o) {
    if (o == null) return this.tag;
    return o.tag;
  }
  String run() { return pick(next) + pick(this); }
}
class G389 {
  private @Nullable G389 next;
  private String tag;
  G389(String t) { this.tag = t; }
  private String pick(G389 o) {
    if (o == null) return this.tag;
    return o.tag;
  }
  String run() { return pick(next) + pick(this); }
}
class G390 {
  private @Nullable G390 next;
  private String tag;
  G390(String t) { this.tag = t; }
  private String pick(G390 o) {
    if (o == null) return this.tag;
    return o.tag;
  }
  String run() { return pick(next) + pick(this); }
}
class G391 {
  private @Nullable G391 next;
  private String tag;
  G391(String t) { this.tag = t; }
  private String pick(G391 o) {
    if (o == null) return this.tag;
    return o.tag;
  }
  String run() { return pick(next) + pick(this); }
}
class G392 {
  private @Nullable G392 next;
  private String tag;
  G392(String t) { this.tag = t; }
  private String pick(G392 o) {
    if (o == null) return this.tag;
    return o.tag;
  }
  String run() { return pick(next) + pick(this); }
}
class G393 {
  private @Nullable G393 next;
  private String tag;
  G393(String t) { this.tag = t; }
  private String pick(G393 o) {
    if (o == null) return this.tag;
    return o.tag;
  }
  String run() { return pick(next) + pick(this); }
}
class G394 {
  private @Nullable G394 next;
  private String tag;
  G394(String t) { this.tag = t; }
  private String pick(G394 o) {
    if (o == null) return this.tag;
    return o.tag;
  }
  String run() { return pick(next) + pick(this); }
}
class G395 {
  private @Nullable G395 next;
  private String tag;
  G395(String t) { this.tag = t; }
  private String pick(G395 o) {
    if (o == null) return this.tag;
    return o.tag;
  }
  String run() { return pick(next) + pick(this); }
}
class G396 {
  private @Nullable G396 next;
  private String tag;
  G396(String t) { this.tag = t; }
  private String pick(G396 o) {
    if (o == null) return this.tag;
    return o.tag;
  }
  String run() { return pick(next) + pick(this); }
}
class G397 {
  private @Nullable G397 next;
  private String tag;
  G397(String t) { this.tag = t; }
  private String pick(G397 o) {
    if (o == null) return this.tag;
    return o.tag;
  }
  String run() { return pick(next) + pick(this); }
}
class G398 {
  private @Nullable G398 next;
  private String tag;
  G398(String t) { this.tag = t; }
  private String pick(G398 o) {
    if (o == null) return this.tag;
    return o.tag;
  }
  String run() { return pick(next) + pick(this); }
}
class G399 {
  private @Nullable G399 next;
  private String tag;
  G399(String t) { this.tag = t; }
  private String pick(G399 o) {
    if (o == null) return this.tag;
    return o.tag;
  }
  String run() { return pick(next) + pick(this); }
}
class G400 {
  private @Nullable G400 next;
  private String tag;
  G400(String t) { this.tag = t; }
  private String pick(G400 o) {
    if (o == null) return this.tag;
    return o.tag;
  }
  String run() { return pick(next) + pick(this); }
}
class G401 {
  private @Nullable G401 next;
  private String tag;
  G401(String t) { this.tag = t; }
  private String pick(G401 o) {
    if (o == null) return this.tag;
    return o.tag;
  }
  String run() { return pick(next) + pick(this); }
}
class G402 {
  private @Nullable G402 next;
  private String tag;
  G402(String t) { this.tag = t; }
  private String pick(G402 o) {
    if (o == null) return this.tag;
    return o.tag;
  }
  String run() { return pick(next) + pick(this); }
}
class G403 {
  private @Nullable G403 next;
  private String tag;
  G403(String t) { this.tag = t; }
  private String pick(G403 o) {
    if (o == null) return this.tag;
    return o.tag;
  }
  String run() { return pick(next) + pick(this); }
}
class G404 {
  private @Nullable G404 next;
  private String tag;
  G404(String t) { this.tag = t; }
  private String pick(G404 o) {
    if (o == null) return this.tag;
    return o.tag;
  }
  String run() { return pick(next) + pick(this); }
}
class G405 {
  private @Nullable G405 next;
  private String tag;
  G405(String t) { this.tag = t; }
  private String pick(G405 o) {
    if (o == null) return this.tag;
    return o.tag;
  }
  String run() { return pick(next) + pick(this); }
}
class G406 {
  private @Nullable G406 next;
  private String tag;
  G406(String t) { this.tag = t; }
  private String pick(G406 o) {
    if (o == null) return this.tag;
    return o.tag;
  }
  String run() { return pick(next) + pick(this); }
}
class G407 {
  private @Nullable G407 next;
  private String tag;
  G407(String t) { this.tag = t; }
  private String pick(G407 o) {
    if (o == null) return this.tag;
    return o.tag;
  }
  String run() { return pick(next) + pick(this); }
}
class G408 {
  private @Nullable G408 next;
  private String tag;
  G408(String t) { this.tag = t; }
  private String pick(G408 o) {
    if (o == null) return this.tag;
    return o.tag;
  }
  String run() { return pick(next) + pick(this); }
}
class G409 {
  private @Nullable G409 next;
  private String tag;
  G409(String t) { this.tag = t; }
  private String pick(G409 o) {
    if (o == null) return this.tag;
    return o.tag;
  }
  String run() { return pick(next) + pick(this); }
}
class G410 {
  private @Nullable G410 next;
  private String tag;
  G410(String t) { this.tag = t; }
  private String pick(G410 o) {
    if (o == null) return this.tag;
    return o.tag;
  }
  String run() { return pick(next) + pick(this); }
}
class G411 {
  private @Nullable G411 next;
  private String tag;
  G411(String t) { this.tag = t; }
  private String pick(G411 o) {
    if (o == null) return this.tag;
    return o.tag;
  }
  String run() { return pick(next) + pick(this); }
}
class G412 {
  private @Nullable G412 next;
  private String tag;
  G412(String t) { this.tag = t; }
  private String pick(G412 o) {
    if (o == null) return this.tag;
    return o.tag;
  }
  String run() { return pick(next) + pick(this); }
}
class G413 {
  private @Nullable G413 next;
  private String tag;
  G413(String t) { this.tag = t; }
  private String pick(G413 o) {
    if (o == null) return this.tag;
    return o.tag;
  }
  String run() { return pick(next) + pick(this); }
}
class G414 {
  private @Nullable G414 next;
  private String tag;
  G414(String t) { this.tag = t; }
  private String pick(G414 o) {
    if (o == null) return this.tag;
    return o.tag;
  }
  String run() { return pick(next) + pick(this); }
}
class G415 {
  private @Nullable G415 next;
  private String tag;
  G415(String t) { this.tag = t; }
  private String pick(G415 o) {
    if (o == null) return this.tag;
    return o.tag;
  }
  String run() { return pick(next) + pick(this); }
}
class G416 {
  private @Nullable G416 next;
  private String tag;
  G416(String t) { this.tag = t; }
  private String pick(G416 o) {
    if (o == null) return this.tag;
    return o.tag;
  }
  String run() { return pick(next) + pick(this); }
}
class G417 {
  private @Nullable G417 next;
  private String tag;
  G417(String t) { this.tag = t; }
  private String pick(G417 o) {
    if (o == null) return this.tag;
    return o.tag;
  }
  String run() { return pick(next) + pick(this); }
}
class G418 {
  private @Nullable G418 next;
  private String tag;
  G418(String t) { this.tag = t; }
  private String pick(G418 o) {
    if (o == null) return this.tag;
    return o.tag;
  }
  String run() { return pick(next) + pick(this); }
}
class G419 {
  private @Nullable G419 next;
  private String tag;
  G419(String t) { this.tag = t; }
  private String pick(G419 o) {
    if (o == null) return this.tag;
    return o.tag;
  }
  String run() { return pick(next) + pick(this); }
}
class G420 {
  private @Nullable G420 next;
  private String tag;
  G420(String t) { this.tag = t; }
  private String pick(G420 o) {
    if (o == null) return this.tag;
    return o.tag;
  }
  String run() { return pick(next) + pick(this); }
}
class G421 {
  private @Nullable G421 next;
  private String tag;
  G421(String t) { this.tag = t; }
  private String pick(G421 o) {
    if (o == null) return this.tag;
    return o.tag;
  }
  String run() { return pick(next) + pick(this); }
}
class G422 {
  private @Nullable G422 next;
  private String tag;
  G422(String t) { this.tag = t; }
  private String pick(G422 o) {
    if (o == null) return this.tag;
    return o.tag;
  }
  String run() { return pick(next) + pick(this); }
}
class G423 {
  private @Nullable G423 next;
  private String tag;
  G423(String t) { this.tag = t; }
  private String pick(G423 o) {
    if (o == null) return this.tag;
    return o.tag;
  }
  String run() { return pick(next) + pick(this); }
}
class G424 {
  private @Nullable G424 next;
  private String tag;
  G424(String t) { this.tag = t; }
  private String pick(G424 o) {
    if (o == null) return this.tag;
    return o.tag;
  }
  String run() { return pick(next) + pick(this); }
}
class G425 {
  private @Nullable G425 next;
  private String tag;
  G425(String t) { this.tag = t; }
  private String pick(G425 o) {
    if (o == null) return this.tag;
    return o.tag;
  }
  String run() { return pick(next) + pick(this); }
}
class G426 {
  private @Nullable G426 next;
  private String tag;
  G426(String t) { this.tag = t; }
  private String pick(G426 o) {
    if (o == null) return this.tag;
    return o.tag;
  }
  String run() { return pick(next) + pick(this); }
}
class G427 {
  private @Nullable G427 next;
  private String tag;
  G427(String t) { this.tag = t; }
  private String pick(G427 o) {
    if (o == null) return this.tag;
    return o.tag;
  }
  String run() { return pick(next) + pick(this); }
}
class G428 {
  private @Nullable G428 next;
  private String tag;
  G428(String t) { this.tag = t; }
  private String pick(G428 o) {
    if (o == null) return this.tag;
    return o.tag;
  }
  String run() { return pick(next) + pick(this); }
}
class G429 {
  private @Nullable G429 next;
  private String tag;
  G429(String t) { this.tag = t; }
  private String pick(G429 o) {
    if (o == null) return this.tag;
    return o.tag;
  }
  String run() { return pick(next) + pick(this); }
}
class G430 {
  private @Nullable G430 next;
  private String tag;
  G430(String t) { this.tag = t; }
  private String pick(G430 o) {
    if (o == null) return this.tag;
    return o.tag;
  }
  String run() { return pick(next) + pick(this); }
}
class G431 {
  private @Nullable G431 next;
  private String tag;
  G431(String t) { this.tag = t; }
  private String pick(G431 o) {
    if (o == null) return this.tag;
    return o.tag;
  }
  String run() { return pick(next) + pick(this); }
}
class G432 {
  private @Nullable G432 next;
  private String tag;
  G432(String t) { this.tag = t; }
  private String pick(G432 o) {
    if (o == null) return this.tag;
    return o.tag;
  }
  String run() { return pick(next) + pick(this); }
}
class G433 {
  private @Nullable G433 next;
  private String tag;
  G433(String t) { this.tag = t; }
  private String pick(G433 o) {
    if (o == null) return this.tag;
    return o.tag;
  }
  String run() { return pick(next) + pick(this); }
}
class G434 {
  private @Nullable G434 next;
  private String tag;
  G434(String t) { this.tag = t; }
  private String pick(G434 o) {
    if (o == null) return this.tag;
    return o.tag;
  }
  String run() { return pick(next) + pick(this); }
}
class G435 {
  private @Nullable G435 next;
  private String tag;
  G435(String t) { this.tag = t; }
  private String pick(G435 o) {
    if (o == null) return this.tag;
    return o.tag;
  }
  String run() { return pick(next) + pick(this); }
}
class G436 {
  private @Nullable G436 next;
  private String tag;
  G436(String t) { this.tag = t; }
  private String pick(G436 o) {
    if (o == null) return this.tag;
    return o.tag;
  }
  String run() { return pick(next) + pick(this); }
}
class G437 {
  private @Nullable G437 next;
  private String tag;
  G437(String t) { this.tag = t; }
  private String pick(G437 o) {
    if (o == null) return this.tag;
    return o.tag;
  }
  String run() { return pick(next) + pick(this); }
}
class G438 {
  private @Nullable G438 next;
  private String tag;
  G438(String t) { this.tag = t; }
  private String pick(G438 o) {
    if (o == null) return this.tag;
    return o.tag;
  }
  String run() { return pick(next) + pick(this); }
}
class G439 {
  private @Nullable G439 next;
  private String tag;
  G439(String t) { this.tag = t; }
  private String pick(G439 o) {
    if (o == null) return this.tag;
    return o.tag;
  }
  String run() { return pick(next) + pick(this); }
}
class G440 {
  private @Nullable G440 next;
  private String tag;
  G440(String t) { this.tag = t; }
  private String pick(G440 o) {
    if (o == null) return this.tag;
    return o.tag;
  }
  String run() { return pick(next) + pick(this); }
}
class G441 {
  private @Nullable G441 next;
  private String tag;
  G441(String t) { this.tag = t; }
  private String pick(G441 o) {
    if (o == null) return this.tag;
    return o.tag;
  }
  String run() { return pick(next) + pick(this); }
}
class G442 {
  private @Nullable G442 next;
  private String tag;
  G442(String t) { this.tag = t; }
  private String pick(G442 o) {
    if (o == null) return this.tag;
    return o.tag;
  }
  String run() { return pick(next) + pick(this); }
}
class G443 {
  private @Nullable G443 next;
  private String tag;
  G443(String t) { this.tag = t; }
  private String pick(G443 o) {
    if (o == null) return this.tag;
    return o.tag;
  }
  String run() { return pick(next) + pick(this); }
}
class G444 {
  private @Nullable G444 next;
  private String tag;
  G444(String t) { this.tag = t; }
  private String pick(G444 o) {
    if (o == null) return this.tag;
    return o.tag;
  }
  String run() { return pick(next) + pick(this); }
}
class G445 {
  private @Nullable G445 next;
  private String tag;
  G445(String t) { this.tag = t; }
  private String pick(G445 o) {
    if (o == null) return this.tag;
    return o.tag;
  }
  String run() { return pick(next) + pick(this); }
}
class G446 {
  private @Nullable G446 next;
  private String tag;
  G446(String t) { this.tag = t; }
  private String pick(G446 o) {
    if (o == null) return this.tag;
    return o.tag;
  }
  String run() { return pick(next) + pick(this); }
}
class G447 {
  private @Nullable G447 next;
  private String tag;
  G447(String t) { this.tag = t; }
  private String pick(G447 o) {
    if (o == null) return this.tag;
    return o.tag;
  }
  String run() { return pick(next) + pick(this); }
}
class G448 {
  private @Nullable G448 next;
  private String tag;
  G448(String t) { this.tag = t; }
  private String pick(G448 o) {
    if (o == null) return this.tag;
    return o.tag;
  }
  String run() { return pick(next) + pick(this); }
}
class G449 {
  private @Nullable G449 next;
  private String tag;
  G449(String t) { this.tag = t; }
  private String pick(G449 o) {
    if (o == null) return this.tag;
    return o.tag;
  }
  String run() { return pick(next) + pick(this); }
}
class G450 {
  private @Nullable G450 next;
  private String tag;
  G450(String t) { this.tag = t; }
  private String pick(G450 o) {
    if (o == null) return this.tag;
    return o.tag;
  }
  String run() { return pick(next) + pick(this); }
}
class G451 {
  private @Nullable G451 next;
  private String tag;
  G451(String t) { this.tag = t; }
  private String pick(G451 o) {
    if (o == null) return this.tag;
    return o.tag;
  }
  String run() { return pick(next) + pick(this); }
}
class G452 {
  private @Nullable G452 next;
  private String tag;
  G452(String t) { this.tag = t; }
  private String pick(G452 o) {
    if (o == null) return this.tag;
    return o.tag;
  }
  String run() { return pick(next) + pick(this); }
}
class G453 {
  private @Nullable G453 next;
  private String tag;
  G453(String t) { this.tag = t; }
  private String pick(G453 o) {
    if (o == null) return this.tag;
    return o.tag;
  }
  String run() { return pick(next) + pick(this); }
}
class G454 {
  private @Nullable G454 next;
  private String tag;
  G454(String t) { this.tag = t; }
  private String pick(G454 o) {
    if (o == null) return this.tag;
    return o.tag;
  }
  String run() { return pick(next) + pick(this); }
}
class G455 {
  private @Nullable G455 next;
  private String tag;
  G455(String t) { this.tag = t; }
  private String pick(G455 o) {
    if (o == null) return this.tag;
    return o.tag;
  }
  String run() { return pick(next) + pick(this); }
}
class G456 {
  private @Nullable G456 next;
  private String tag;
  G456(String t) { this.tag = t; }
  private String pick(G456 o) {
    if (o == null) return this.tag;
    return o.tag;
  }
  String run() { return pick(next) + pick(this); }
}
class G457 {
  private @Nullable G457 next;
  private String tag;
  G457(String t) { this.tag = t; }
  private String pick(G457 o) {
    if (o == null) return this.tag;
    return o.tag;
  }
  String run() { return pick(next) + pick(this); }
}
class G458 {
  private @Nullable G458 next;
  private String tag;
  G458(String t) { this.tag = t; }
  private String pick(G458 o) {
    if (o == null) return this.tag;
    return o.tag;
  }
  String run() { return pick(next) + pick(this); }
}
class G459 {
  private @Nullable G459 next;
  private String tag;
  G459(String t) { this.tag = t; }
  private String pick(G459 o) {
    if (o == null) return this.tag;
    return o.tag;
  }
  String run() { return pick(next) + pick(this); }
}
class G460 {
  private @Nullable G460 next;
  private String tag;
  G460(String t) { this.tag = t; }
  private String pick(G460 o) {
    if (o == null) return this.tag;
    return o.tag;
  }
  String run() { return pick(next) + pick(this); }
}
class G461 {
  private @Nullable G461 next;
  private String tag;
  G461(String t) { this.tag = t; }
  private String pick(G461 o) {
    if (o == null) return this.tag;
    return o.tag;
  }
  String run() { return pick(next) + pick(this); }
}
class G462 {
  private @Nullable G462 next;
  private String tag;
  G462(String t) { this.tag = t; }
  private String pick(G462 o) {
    if (o == null) return this.tag;
    return o.tag;
  }
  String run() { return pick(next) + pick(this); }
}
class G463 {
  private @Nullable G463 next;
  private String tag;
  G463(String t) { this.tag = t; }
  private String pick(G463 o) {
    if (o == null) return this.tag;
    return o.tag;
  }
  String run() { return pick(next) + pick(this); }
}
class G464 {
  private @Nullable G464 next;
  private String tag;
  G464(String t) { this.tag = t; }
  private String pick(G464 o) {
    if (o == null) return this.tag;
    return o.tag;
  }
  String run() { return pick(next) + pick(this); }
}
class G465 {
  private @Nullable G465 next;
  private String tag;
  G465(String t) { this.tag = t; }
  private String pick(G465 o) {
    if (o == null) return this.tag;
    return o.tag;
  }
  String run() { return pick(next) + pick(this); }
}
class G466 {
  private @Nullable G466 next;
  private String tag;
  G466(String t) { this.tag = t; }
  private String pick(G466 o) {
    if (o == null) return this.tag;
    return o.tag;
  }
  String run() { return pick(next) + pick(this); }
}
class G467 {
  private @Nullable G467 next;
  private String tag;
  G467(String t) { this.tag = t; }
  private String pick(G467 o) {
    if (o == null) return this.tag;
    return o.tag;
  }
  String run() { return pick(next) + pick(this); }
}
class G468 {
  private @Nullable G468 next;
  private String tag;
  G468(String t) { this.tag = t; }
  private String pick(G468 o) {
    if (o == null) return this.tag;
    return o.tag;
  }
  String run() { return pick(next) + pick(this); }
}
class G469 {
  private @Nullable G469 next;
  private String tag;
  G469(String t) { this.tag = t; }
  private String pick(G469 o) {
    if (o == null) return this.tag;
    return o.tag;
  }
  String run() { return pick(next) + pick(this); }
}
class G470 {
  private @Nullable G470 next;
  private String tag;
  G470(String t) { this.tag = t; }
  private String pick(G470 o) {
    if (o == null) return this.tag;
    return o.tag;
  }
  String run() { return pick(next) + pick(this); }
}
class G471 {
  private @Nullable G471 next;
  private String tag;
  G471(String t) { this.tag = t; }
  private String pick(G471 o) {
    if (o == null) return this.tag;
    return o.tag;
  }
  String run() { return pick(next) + pick(this); }
}
class G472 {
  private @Nullable G472 next;
  private String tag;
  G472(String t) { this.tag = t; }
  private String pick(G472 o) {
    if (o == null) return this.tag;
    return o.tag;
  }
  String run() { return pick(next) + pick(this); }
}
class G473 {
  private @Nullable G473 next;
  private String tag;
  G473(String t) { this.tag = t; }
  private String pick(G473 o) {
    if (o == null) return this.tag;
    return o.tag;
  }
  String run() { return pick(next) + pick(this); }
}
class G474 {
  private @Nullable G474 next;
  private String tag;
  G474(String t) { this.tag = t; }
  private String pick(G474 o) {
    if (o == null) return this.tag;
    return o.tag;
  }
  String run() { return pick(next) + pick(this); }
}
class G475 {
  private @Nullable G475 next;
  private String tag;
  G475(String t) { this.tag = t; }
  private String pick(G475 o) {
    if (o == null) return this.tag;
    return o.tag;
  }
  String run() { return pick(next) + pick(this); }
}
class G476 {
  private @Nullable G476 next;
  private String tag;
  G476(String t) { this.tag = t; }
  private String pick(G476 o) {
    if (o == null) return this.tag;
    return o.tag;
  }
  String run() { return pick(next) + pick(this); }
}
class G477 {
  private @Nullable G477 next;
  private String tag;
  G477(String t) { this.tag = t; }
  private String pick(G477 o) {
    if (o == null) return this.tag;
    return o.tag;
  }
  String run() { return pick(next) + pick(this); }
}
class G478 {
  private @Nullable G478 next;
  private String tag;
  G478(String t) { this.tag = t; }
  private String pick(G478 o) {
    if (o == null) return this.tag;
    return o.tag;
  }
  String run() { return pick(next) + pick(this); }
}
class G479 {
  private @Nullable G479 next;
  private String tag;
  G479(String t) { this.tag = t; }
  private String pick(G479 o) {
    if (o == null) return this.tag;
    return o.tag;
  }
  String run() { return pick(next) + pick(this); }
}
class G480 {
  private @Nullable G480 next;
  private String tag;
  G480(String t) { this.tag = t; }
  private String pick(G480 o) {
    if (o == null) return this.tag;
    return o.tag;
  }
  String run() { return pick(next) + pick(this); }
}
class G481 {
  private @Nullable G481 next;
  private String tag;
  G481(String t) { this.tag = t; }
  private String pick(G481 o) {
    if (o == null) return this.tag;
    return o.tag;
  }
  String run() { return pick(next) + pick(this); }
}
class G482 {
  private @Nullable G482 next;
  private String tag;
  G482(String t) { this.tag = t; }
  private String pick(G482 o) {
    if (o == null) return this.tag;
    return o.tag;
  }
  String run() { return pick(next) + pick(this); }
}
class G483 {
  private @Nullable G483 next;
  private String tag;
  G483(String t) { this.tag = t; }
  private String pick(G483 o) {
    if (o == null) return this.tag;
    return o.tag;
  }
  String run() { return pick(next) + pick(this); }
}
class G484 {
  private @Nullable G484 next;
  private String tag;
  G484(String t) { this.tag = t; }
  private String pick(G484 o) {
    if (o == null) return this.tag;
    return o.tag;
  }
  String run() { return pick(next) + pick(this); }
}
class G485 {
  private @Nullable G485 next;
  private String tag;
  G485(String t) { this.tag = t; }
  private String pick(G485 o) {
    if (o == null) return this.tag;
    return o.tag;
  }
  String run() { return pick(next) + pick(this); }
}
class G486 {
  private @Nullable G486 next;
  private String tag;
  G486(String t) { this.tag = t; }
  private String pick(G486 o) {
    if (o == null) return this.tag;
    return o.tag;
  }
  String run() { return pick(next) + pick(this); }
}
class G487 {
  private @Nullable G487 next;
  private String tag;
  G487(String t) { this.tag = t; }
  private String pick(G487 o) {
    if (o == null) return this.tag;
    return o.tag;
  }
  String run() { return pick(next) + pick(this); }
}
class G488 {
  private @Nullable G488 next;
  private String tag;
  G488(String t) { this.tag = t; }
  private String pick(G488 o) {
    if (o == null) return this.tag;
    return o.tag;
  }
  String run() { return pick(next) + pick(this); }
}
class G489 {
  private @Nullable G489 next;
  private String tag;
  G489(String t) { this.tag = t; }
  private String pick(G489 o) {
    if (o == null) return this.tag;
    return o.tag;
  }
  String run() { return pick(next) + pick(this); }
}
class G490 {
  private @Nullable G490 next;
  private String tag;
  G490(String t) { this.tag = t; }
  private String pick(G490 o) {
    if (o == null) return this.tag;
    return o.tag;
  }
  String run() { return pick(next) + pick(this); }
}
class G491 {
  private @Nullable G491 next;
  private String tag;
  G491(String t) { this.tag = t; }
  private String pick(G491 o) {
    if (o == null) return this.tag;
    return o.tag;
  }
  String run() { return pick(next) + pick(this); }
}
class G492 {
  private @Nullable G492 next;
  private String tag;
  G492(String t) { this.tag = t; }
  private String pick(G492 o) {
    if (o == null) return this.tag;
    return o.tag;
  }
  String run() { return pick(next) + pick(this); }
}
class G493 {
  private @Nullable G493 next;
  private String tag;
  G493(String t) { this.tag = t; }
  private String pick(G493 o) {
    if (o == null) return this.tag;
    return o.tag;
  }
  String run() { return pick(next) + pick(this); }
}
class G494 {
  private @Nullable G494 next;
  private String tag;
  G494(String t) { this.tag = t; }
  private String pick(G494 o) {
    if (o == null) return this.tag;
    return o.tag;
  }
  String run() { return pick(next) + pick(this); }
}
class G495 {
  private @Nullable G495 next;
  private String tag;
  G495(String t) { this.tag = t; }
  private String pick(G495 o) {
    if (o == null) return this.tag;
    return o.tag;
  }
  String run() { return pick(next) + pick(this); }
}
class G496 {
  private @Nullable G496 next;
  private String tag;
  G496(String t) { this.tag = t; }
  private String pick(G496 o) {
    if (o == null) return this.tag;
    return o.tag;
  }
  String run() { return pick(next) + pick(this); }
}
class G497 {
  private @Nullable G497 next;
  private String tag;
  G497(String t) { this.tag = t; }
  private String pick(G497 o) {
    if (o == null) return this.tag;
    return o.tag;
  }
  String run() { return pick(next) + pick(this); }
}
class G498 {
  private @Nullable G498 next;
  private String tag;
  G498(String t) { this.tag = t; }
  private String pick(G498 o) {
    if (o == null) return this.tag;
    return o.tag;
  }
  String run() { return pick(next) + pick(this); }
}
class G499 {
  private @Nullable G499 next;
  private String tag;
  G499(String t) { this.tag = t; }
  private String pick(G499 o) {
    if (o == null) return this.tag;
    return o.tag;
  }
  String run() { return pick(next) + pick(this); }
}
