enum Step {
  case stop
  case go(Int)
  case turn(Bool, Int)
}
func length(_ step: Step) -> Int {
  switch step {
  case .go(let n):
    let give = { n }
    return give()
  case .turn(let left, let n):
    if left {
      return -n
    }
    return n
  case .stop: return 0
  }
}
func show(_ step: Step) {
  switch step {
  case .turn(_, let n):
    print(n)
  default:
    print(false)
  }
  switch step {
  case .turn: print(1)
  case .stop: break
  case .go(_): print(2); print(3)
  }
}
@main struct App {
  static func main() {
    let step = Step.turn(true, 4)
    print(length(step) + length(Step.go(1)))
    show(Step.stop)
  }
}
