enum Light {
  case red, green(Int)
}
enum Nothing {
}
func show(_ light: Light) -> Int {
  switch light {
  case .green(let first):
    return first
  case .red:
    print(0)
  case .green(let second):
    return second
  default:
    return 1
  }
  return 2
}
func never(_ nothing: Nothing) -> Int {
  switch nothing {
  }
}
@main struct App {
  static func main() {
    print(show(Light.green(3)))
  }
}
