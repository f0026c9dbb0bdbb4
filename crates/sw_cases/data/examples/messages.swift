enum Message {
  case deposit(Int)
  case withdraw(Int)
  case close
}
actor Till {
  var cash = 0
  var isOpen = true
  func receive(_ message: Message) -> Int {
    switch message {
    case .deposit(let amount):
      if isOpen { cash += amount }
    case .withdraw(let amount):
      if isOpen && amount <= cash { cash -= amount }
    case .close:
      isOpen = false
    }
    return cash
  }
}
@main struct App {
  static func main() async {
    let till = Till()
    let closing = Task.detached { return await till.receive(Message.close) }
    print(await till.receive(Message.deposit(50)))
    print(await till.receive(Message.withdraw(20)))
    print(await closing.value)
  }
}
