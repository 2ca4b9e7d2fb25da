class StopOwn {
  enum B { X }
}
