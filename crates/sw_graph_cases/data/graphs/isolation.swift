@globalActor actor Store {
  static let shared = Store()
}
@Store var stock = 3
@MainActor final class View {
  var width = 1
  let depth = 2
  func draw() { }
  nonisolated func name() -> Int { return 4 }
  func load() async {
    let closure = { width += 1 }
    closure()
    let task = Task { width }
    let detached = Task.detached { await self.width }
    width = await task.value + detached.value
  }
}
@Store func sell() {
  stock -= 1
  let closure: @Sendable () -> Void = { print(1) }
  closure()
}
@concurrent func leave() async { }
nonisolated(nonsending) func stay() async {
  let closure = { print(2) }
  closure()
}
nonisolated func free() { }
@main struct App {
  @MainActor static func main() async {
    let view = View()
    await sell()
    await view.load()
    view.draw()
    print(await stock, view.width, view.name(), view.depth)
    await leave()
    await stay()
    free()
  }
}
