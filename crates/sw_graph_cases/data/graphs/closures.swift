final class Holder {
  let act: (Int) -> Int
  init(_ act: @escaping (Int) -> Int) {
    self.act = act
  }
  func run(_ n: Int) -> Int {
    return act(n) + self.act(n)
  }
}
struct Pair {
  let one: () -> Void
  let other: @Sendable () -> Int
}
func limit() -> Int { return 5 }
func apply(_ act: (Int, Bool) -> Int, _ n: Int) -> Int {
  return act(n, n < limit())
}
func adder(_ step: Int) -> (Int) -> Int {
  return { (n: Int) in n + step }
}
@main struct App {
  static func main() async {
    let add = adder(3)
    let holder = Holder(add)
    let later: @Sendable () -> Int = { return limit() }
    print(apply({ (n: Int, less: Bool) in
      if less {
        return add(n)
      }
      return 0
    }, 4))
    let pair = Pair(one: { print(holder.run(1)) }, other: { return 2 })
    pair.one()
    print(pair.other())
    _ = later
  }
}
