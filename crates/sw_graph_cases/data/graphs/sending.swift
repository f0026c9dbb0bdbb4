final class Box {
  var n = 0
}
func keep(_ box: sending Box, _ n: Int) { }
func fresh() -> sending Box {
  return Box()
}
actor Bank {
  func take(_ n: Int, box: sending Box) { }
  func give() -> sending Box {
    return fresh()
  }
}
@main struct App {
  static func main() async {
    let bank = Bank()
    let box = await bank.give()
    keep(box, 1)
    await bank.take(2, box: fresh())
  }
}
