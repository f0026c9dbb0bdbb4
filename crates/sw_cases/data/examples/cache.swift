@globalActor actor Cached {
  static let shared = Cached()
}
var lastKey = 0
var lastSquare = 0
func square(of key: Int) -> Int {
  if key != lastKey {
    lastKey = key
    lastSquare = key * key
  }
  return lastSquare
}
@main struct App {
  static func main() async {
    let other = Task.detached { return square(of: 5) }
    print(square(of: 7))
    print(await other.value)
  }
}
