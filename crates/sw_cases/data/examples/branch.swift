final class Cell {
  var n = 0
}
@main struct App {
  static func main() {
    let c = Cell()
    if 1 < 2 {
      Task.detached {
        c.n = 1
      }
    } else {
      c.n = 2
    }
    print(3)
  }
}
