@globalActor actor Cached {
  static let shared = Cached()
}
@Cached var lastKey = 0
@Cached var lastSquare = 0
@Cached func square(of key: Int) -> Int {
  if key != lastKey {
    lastKey = key
    lastSquare = key * key
  }
  return lastSquare
}
@main struct App {
  static func main() async {
    let other = Task.detached { return await square(of: 5) }
    print(await square(of: 7))
    print(await other.value)
  }
}
