func later(_ body: @escaping @Sendable () -> Int) -> Task<Int, Never> {
  return Task.detached { body() }
}
@main struct App {
  static func main() async {
    var found = 0
    let first = later({ return 3 })
    let second = later({ return 4 })
    found += await first.value
    found += await second.value
    print(found)
  }
}
