func later(_ body: @escaping @Sendable () -> Void) -> Task<Void, Never> {
  return Task.detached { body() }
}
@main struct App {
  static func main() async {
    var found = 0
    let first = later({ found += 3 })
    let second = later({ found += 4 })
    await first.value
    await second.value
    print(found)
  }
}
