@main struct App {
  static func main() {
    var count = 0
    var step = 1
    let add = {
      count += step
      step = count
    }
    add()
    count = count + step
    count -= 1
    let outer = {
      let inner = { count *= 2 }
      inner()
      var own = 5
      let mine = { own += count }
      mine()
      print(own)
    }
    outer()
    print(count, step)
  }
}
