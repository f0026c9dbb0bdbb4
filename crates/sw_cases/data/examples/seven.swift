@main struct App {
  static func main() {
    print(7)
  }
}
