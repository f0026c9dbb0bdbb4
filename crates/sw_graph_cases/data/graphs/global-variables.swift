final class Box {
  var n = 1
}
enum Mode: Sendable {
  case off, on(Int)
}
@MainActor var count = 0
let start = 7
let mode = Mode.on(1)
let less = -2
@MainActor var box = Box()
@MainActor func change() {
  count = start
  count += 2
  box.n = count
  box = Box()
  box.n *= 3
}
@main struct App {
  static func main() async {
    await change()
    print(await count, start + less)
    let add: @Sendable () -> Int = { return start }
    print(add())
    switch mode {
    case .off: print(0)
    case .on(let n): print(n)
    }
  }
}
