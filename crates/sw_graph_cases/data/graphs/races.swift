final class Box {
  var n = 0
}
actor Keeper {
  let box = Box()
  func lend() -> Box {
    return box
  }
}
@main struct App {
  static func main() async {
    let keeper = Keeper()
    var count = 1
    let note: @Sendable () -> Int = { return count }
    let box = await keeper.lend()
    Task.detached {
      print(keeper.box.n, box.n)
    }
    box.n = note()
    count = keeper.box.n
  }
}
