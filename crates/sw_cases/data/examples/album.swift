final class Photo {
  var width = 640
}
@MainActor var shown = Photo()
@MainActor func show(_ photo: Photo) {
  shown = photo
}
actor Album {
  var cover = Photo()
  func keep(_ photo: Photo) {
    cover = photo
  }
}
@main struct App {
  static func main() async {
    let album = Album()
    let first = Photo()
    let second = Photo()
    let third = Photo()
    await album.keep(first)
    await show(second)
    Task.detached { third.width = 320 }
  }
}
