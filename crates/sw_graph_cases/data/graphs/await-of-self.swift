actor Bank {
  var balance = 1
  func show() { }
  func more() async {
    show()
    await show()
    await (await self).show()
    print(await (await self).balance + balance)
    let me = self
    await me.show()
  }
}
@main struct App {
  static func main() async {
    await Bank().more()
  }
}
