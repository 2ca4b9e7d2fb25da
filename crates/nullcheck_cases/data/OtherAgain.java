class OtherPart { }
