func plain() { }
func roams() async { }
nonisolated(nonsending) func stays() async { }
@MainActor func central() { }
@MainActor func centralLater() async { }
final class Box {
  func open() { }
  func wait() async { }
}
@MainActor final class Window {
  func show() { }
}
actor Bank {
  let box = Box()
  func close() { }
  func shut() async {
    plain()
    close()
    self.close()
    await roams()
    await stays()
    await central()
    box.open()
    await box.wait()
    await Bank().close()
  }
  nonisolated func name() { }
}
@MainActor func desk(_ bank: Bank) async {
  plain()
  central()
  await centralLater()
  await roams()
  await stays()
  await bank.shut()
  bank.name()
  Box().open()
  Window().show()
}
nonisolated(nonsending) func visit(_ bank: Bank) async {
  plain()
  await roams()
  await stays()
  await central()
  await bank.close()
}
@main struct App {
  static func main() async {
    let bank = Bank()
    await roams()
    await stays()
    await desk(bank)
    await visit(bank)
    await bank.close()
    await Box().wait()
    await Window().show()
  }
}
