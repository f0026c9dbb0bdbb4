actor Account {
  var balance: Int
  init(balance: Int) {
    self.balance = balance
  }
  func deposit(_ amount: Int) {
    balance += amount
  }
  func transfer(_ amount: Int, to other: Account) async {
    balance -= amount
    await other.deposit(amount)
  }
}
@main struct App {
  static func main() async {
    let mine = Account(balance: 100)
    let yours = Account(balance: 50)
    let paying = Task.detached { await mine.transfer(30, to: yours) }
    await yours.transfer(20, to: mine)
    await paying.value
    print(await mine.balance, await yours.balance)
  }
}
