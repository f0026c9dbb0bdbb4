func both(_ a: Bool, _ b: Bool) -> Bool {
  a && b
}
func either(_ a: Bool, _ b: Bool, _ c: Bool) -> Bool {
  return a || b && !c || both(a, c)
}
@main struct App {
  static func main() {
    var seen = both(true, false) || either(false, true, false)
    seen = seen && seen
    if seen && (both(true, true) || seen) {
      print(seen)
    }
  }
}
