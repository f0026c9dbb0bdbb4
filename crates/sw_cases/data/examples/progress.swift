final class Progress {
  var done = 0
  func step() {
    done += 1
  }
}
@main struct App {
  static func main() async {
    let progress = Progress()
    let first = Task.detached { progress.step() }
    let second = Task.detached { progress.step() }
    await first.value
    await second.value
    print(progress.done)
  }
}
