final class Image {
  var width = 640
  func halve() {
    width = width / 2
  }
}
@main struct App {
  static func main() async {
    let image = Image()
    let halving = Task.detached { image.halve() }
    print(image.width)
    await halving.value
    print(image.width)
  }
}
