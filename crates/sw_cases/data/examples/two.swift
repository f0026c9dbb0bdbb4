@main struct App {
  static func main() {
    Task.detached { print(1) }
    print(2)
  }
}
