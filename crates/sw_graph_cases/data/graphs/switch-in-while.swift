enum Light {
  case red, amber, green(Int)
}
func next(_ light: Light, _ n: Int) -> Light {
  switch light {
  case .red: return Light.green(n)
  case .green: return Light.amber
  case .amber: return Light.red
  }
}
@main struct App {
  static func main() {
    var light = Light.red
    var n = 0
    while n < 9 {
      n += 1
      switch light {
      case .green(let left):
        if left == n {
          break
        }
        continue
      case .red:
        print(n)
      default:
        light = Light.red
        break
      }
      switch next(light, n) {
      case .amber:
        light = Light.red
      default:
        light = next(light, n)
      }
    }
  }
}
