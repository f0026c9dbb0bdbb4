final class Image {
  var width = 640
  func halve() {
    width = width / 2
  }
}
@main struct App {
  static func main() async {
    let image = Image()
    print(image.width)
    let halving = Task.detached {
      image.halve()
      return image.width
    }
    print(await halving.value)
  }
}
