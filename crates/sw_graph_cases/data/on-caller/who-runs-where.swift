final class Box {
  var count = 0
  func wait() async { }
}
func plain() { }
func fill(_ box: Box) async {
  box.count += 1
  plain()
  await box.wait()
  await far()
  let task = Task.detached {
    await near()
  }
  await task.value
}
@concurrent func far() async { }
nonisolated func near() async { }
@MainActor func central() async {
  await near()
  await far()
}
actor Bank {
  let box = Box()
  func shut() async {
    plain()
    await fill(box)
    await name()
    await far()
    await central()
  }
  nonisolated func name() async {
    await self.shut()
  }
}
@main struct App {
  static func main() async {
    let bank = Bank()
    await fill(Box())
    await bank.shut()
    await bank.name()
    await central()
  }
}
