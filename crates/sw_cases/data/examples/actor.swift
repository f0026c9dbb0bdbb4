actor Account {
  var balance = 100
  func change(by amount: Int) {
    balance += amount
  }
}
@main struct App {
  static func main() async {
    let account = Account()
    let task = Task.detached {
      await account.change(by: -30)
    }
    await account.change(by: 50)
    print(await account.balance)
    await task.value
    print(await account.balance)
  }
}
