actor Counter {
  var n = 0
  func next() -> Int {
    n += 1
    return n
  }
}
func six() async -> Int {
  6
}
func sum(_ n: Int) async -> Int {
  if n == 0 {
    return 0
  }
  async let rest = sum(n - 1)
  return await rest + n
}
@main struct App {
  static func main() async {
    let counter = Counter()
    async let x = counter.next() * 2
    async let y = x + 1
    if await x == 2 {
      async let z = six()
      print(await -y, await (z))
    }
    let task = Task { await y }
    print(await task.value, await x)
    async let never = six()
  }
}
