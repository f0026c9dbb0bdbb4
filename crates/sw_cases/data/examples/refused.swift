@main struct App {
  static func main() {
    let x =
  }
}
