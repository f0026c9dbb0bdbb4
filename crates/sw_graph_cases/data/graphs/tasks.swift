actor Bank {
  var balance = 1
  func open() {
    let task = Task { balance += 1 }
    let other = Task.detached { await self.open() }
    _ = task
    _ = other
  }
}
@MainActor func show(_ n: Int) {
  print(n)
}
@main struct App {
  static func main() async {
    let bank = Bank()
    let read = Task { () async -> Int in
      await Task.yield()
      return await bank.balance
    }
    let told = Task { @MainActor in
      show(2)
    }
    let nested = Task.detached {
      let inner = Task { 3 }
      return await inner.value
    }
    await Task.yield()
    await told.value
    print(await read.value + nested.value)
    _ = await bank.open()
  }
}
