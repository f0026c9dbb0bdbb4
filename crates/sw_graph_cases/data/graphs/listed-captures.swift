@main struct App {
  static func main() async {
    var count = 0
    let name = 7
    let grow = { count += 1 }
    grow()
    let frozen = { [count] in return count + name }
    let both = { [name, count] (more: Int) -> Int in
      let inner = { [count] in return count + name + more }
      return inner()
    }
    let task = Task { [count] in
      return count + name
    }
    Task.detached { [name] () async -> Int in
      return name
    }
    print(frozen(), both(3), await task.value, count)
  }
}
