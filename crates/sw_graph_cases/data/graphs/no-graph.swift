actor Bank {
  var balance = 100
}
@main struct App {
  static func main() async {
    print(Bank().balance)
  }
}
