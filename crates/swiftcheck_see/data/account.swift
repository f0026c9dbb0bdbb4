final class Account {
  var balance = 100
}
@main struct App {
  static func main() async {
    let account = Account()
    let task = Task.detached {
      account.balance -= 30
    }
    account.balance += 50
    await task.value
    print(account.balance)
  }
}
